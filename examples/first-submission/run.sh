#!/bin/sh
# Builds the program, gives it its first commands in a fresh folder, and shows what it printed and kept.
set -e
here=$(cd "$(dirname "$0")" && pwd)
program="$here/../../crates/cd_prog"
(cd "$program" && rt run < /dev/null)
cdnode="$program/out/cd_prog"
home=$(mktemp -d)
cd "$home"
echo "In the fresh folder $home, cdnode answers:"
"$cdnode" < "$here/commands"
echo "It keeps the journal $home/journal, $(wc -c < journal) bytes:"
od -An -tx1 -v journal
