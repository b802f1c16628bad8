#!/bin/sh
# Builds the benchmark of the reader on a copy of the crates, and runs it. It is no part of the gate.
set -e
top=$(cd "$(dirname "$0")/../.." && pwd)
work=$(mktemp -d)
trap 'rm -rf "$work"' EXIT
mkdir -p "$work/crates/bench_frames/src" "$work/crates/bench_frames/specs" "$work/crates/bench_frames/proofs"
cp -a "$top/HANDLES" "$work/"
cp -a "$top/crates/cd_types" "$top/crates/cd_frames" "$work/crates/"
grep -E '^(cd_types|cd_frames):' "$top/crates.txt" > "$work/crates.txt"
echo 'bench_frames: cd_frames anyhow' >> "$work/crates.txt"
cp "$top/bench/frames/main.rattle" "$work/crates/bench_frames/src/main.rt"
touch "$work/crates/bench_frames/specs/Lib.antt" "$work/crates/bench_frames/proofs/Lib.antt"
cd "$work/crates/bench_frames"
rt run
