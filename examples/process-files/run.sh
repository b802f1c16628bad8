#!/bin/sh
# Builds the program, and gives it commands that look at Processes in files and submit some of them, in a fresh folder.
set -e
here=$(cd "$(dirname "$0")" && pwd)
program="$here/../../crates/cd_prog"
(cd "$program" && rt run < /dev/null)
cdnode="$program/out/cd_prog"
home=$(mktemp -d)
cp "$here"/files/*.cd "$here/commands" "$home"
cd "$home"
echo "In the fresh folder $home, cdnode answers:"
"$cdnode" < commands
echo "It keeps the journal $home/journal, $(wc -c < journal) bytes. In it stand:"
tr '\000-\011\013-\037' '.' < journal
