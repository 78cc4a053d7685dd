#!/usr/bin/env bash
# Asks of each event of some recorded examples what it affects, and compares with what `why` says of each later event: an event is
# listed where its own answer has the one that is asked about, with a star where that has one there.
# WHYLINE names another program than that of tools/program.
set -u
source "$(dirname "$0")/counting.bash"
program=$(readlink -f "${WHYLINE:-$(tools/program)}")

for example in first average overridden swallowed report; do
  trace=$scratch/$example.trace
  events=$("$program" record "examples/$example.java" -o "$trace" 2>/dev/null | sed -n 's/^-- recorded \([0-9]*\) events$/\1/p')
  for ((n = 0; n < ${events:-0}; n++)); do
    "$program" why "$trace" "e$n" >"$scratch/why.$n" 2>/dev/null
  done
  for ((e = 0; e < ${events:-0}; e++)); do
    for ((n = e + 1; n < events; n++)); do
      asked=$(grep -m 1 "^#$e " "$scratch/why.$n") || continue
      line=$(tail -n 1 "$scratch/why.$n")
      case $asked in *' *') echo "$line" ;; *) echo "${line% \*}" ;; esac
    done >"$scratch/wanted"
    [ -s "$scratch/wanted" ] || echo 'nothing later' >"$scratch/wanted"
    "$program" affects "$trace" "e$e" >"$scratch/out" 2>/dev/null
    same=1
    cmp -s "$scratch/wanted" "$scratch/out" || same=0
    report "$example: e$e" "$same"
  done
  [ "${events:-0}" -gt 0 ] || report "$example" 0
done
finish affects
