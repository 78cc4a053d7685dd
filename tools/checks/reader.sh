#!/usr/bin/env bash
# Reads the trace of each example by reader.py, which is written from docs/trace-format.md alone, and compares what it says of
# the run with what the program says. WHYLINE names another program than that of tools/program.
set -u
source "$(dirname "$0")/counting.bash"
program=$(readlink -f "${WHYLINE:-$(tools/program)}")

for source in examples/*.java; do
  "$program" record "$source" -o "$scratch/trace" >/dev/null 2>&1 || continue
  same=1
  "$program" output "$scratch/trace" >"$scratch/wanted" 2>/dev/null
  python3 tools/checks/reader.py "$scratch/trace" >"$scratch/out" 2>/dev/null || same=0
  cmp -s "$scratch/wanted" "$scratch/out" || same=0
  report "$source" "$same"
done
finish reader
