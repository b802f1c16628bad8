#!/bin/sh
# Kills the real program at random moments while it submits, and looks each time whether every acknowledged number is
# still there. Build the program first: (cd crates/cd_prog && rt run </dev/null).
exec python3 "$(dirname "$0")/kill.py" "$@"
