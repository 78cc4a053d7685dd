#!/usr/bin/env bash
# Compares what README.md, docs/ and crates.txt say of the crates with the crates, by tools/pages: crates, files, calls, clauses
# and definitions that are named are there, a crate uses each library that it names, and what tools/pages writes is up to date.
# It reads pages and sources alone, and runs nothing of the program.
set -u
source "$(dirname "$0")/counting.bash"
if python3 -B tools/pages --check >"$scratch/said"; then
  while read -r so what; do
    report "$what" "$so"
  done <"$scratch/said"
else
  report "tools/pages --check" 0
fi
finish pages
