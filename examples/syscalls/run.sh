#!/bin/sh
# Compares what cdnode calls of the system, in an init, a submission and an opening, with the lists beside this file.
# It needs strace. Build the program first, (cd crates/cd_prog && rt run </dev/null), or give its path.
exec python3 "$(dirname "$0")/syscalls.py" "$@"
