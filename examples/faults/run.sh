#!/bin/sh
# Lets each call of the system fail in a run of cdnode, one after the other, and looks at its status, what it tells, and
# whether each acknowledged number is there at the next opening. It needs strace. Build the program first,
# (cd crates/cd_prog && rt run </dev/null), or give its path.
exec python3 "$(dirname "$0")/faults.py" "$@"
