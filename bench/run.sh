#!/bin/sh
# All measurements, one after the other, in a fresh folder below the current one, which is removed afterwards. The disk is
# that of the current folder. Build the programs first: `rt run < /dev/null` in crates/cd_prog, and `rt run -- 1 < stdin` in
# crates/bench_tokens, and `rt run < stdin` in crates/test_parser.
set -e
here=$(cd "$(dirname "$0")" && pwd)
place=$(mktemp -d "$PWD/bench.XXXXXX")
trap 'rm -rf "$place"' EXIT
cd "$place"
export PYTHONDONTWRITEBYTECODE=1
for what in submissions opening tokens processes; do
    echo "== $what"
    python3 "$here/$what.py"
done
