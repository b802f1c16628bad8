#!/bin/sh
# Builds what a crash may leave of the journal at each moment of a run of cdnode, and opens it with the program. It needs
# strace. Build the program first, (cd crates/cd_prog && rt run </dev/null), or give its path and a seed.
exec python3 "$(dirname "$0")/torn.py" "$@"
