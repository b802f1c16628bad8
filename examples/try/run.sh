#!/bin/sh
# Shows within two minutes what cdnode does: two nodes in memory copy a file, as the script beside this file says.
# Nothing is proved for it: the code is compiled and run as it stands. The gate, `rt ci`, proves it and builds the program.
set -e
here=$(cd "$(dirname "$0")" && pwd)
answer=$(mktemp)
trap 'rm -f "$answer"' EXIT
cd "$here/../../crates/cd_prog"
echo "Running the drill of examples/try/script (less than two minutes) ..."
if ! printf 'drill file=script;' | rt try --data script="$here/script" > "$answer" 2>&1; then
    cat "$answer" >&2
    exit 1
fi
echo
echo "The report of the two nodes, ALPHA and BETA:"
echo
sed -n '/^PROCESS 1 SUBMITTED$/,/^TURNS /p' "$answer"
echo
echo "This was the node's own code, not yet proved. The proved program is built by the gate, 'rt ci'."
