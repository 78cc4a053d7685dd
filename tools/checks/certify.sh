#!/usr/bin/env bash
# Certifies each event of some recorded examples, and compares the events that are listed with the answer of `why`; checks each
# certificate, and of every sixth event others that are made of it: without a line, with a line twice, without a source, with one
# too many, of another event, and of another trace. None of those is good.
# WHYLINE names another program than that of tools/program.
set -u
source "$(dirname "$0")/counting.bash"
program=$(readlink -f "${WHYLINE:-$(tools/program)}")

refuses() { # NAME FILE TRACE: the file is no good certificate of the trace
  local same=1
  "$program" check "$3" "$2" >"$scratch/out" 2>/dev/null
  [ $? = 11 ] || same=0
  grep -qx 'certificate: \(not read\|other trace\|event [0-9]*\)' "$scratch/out" || same=0
  report "$1" "$same"
}

counted() { # CERTIFICATE LINES: with so many lines in its head
  sed "1s/[0-9]*\$/$2/" "$1"
}

other=$scratch/other.trace
"$program" record examples/first.java -o "$other" >/dev/null 2>&1
for example in average overridden swallowed report; do
  trace=$scratch/$example.trace cert=$scratch/cert bad=$scratch/bad
  events=$("$program" record "examples/$example.java" -o "$trace" 2>/dev/null | sed -n 's/^-- recorded \([0-9]*\) events$/\1/p')
  for ((e = 0; e < ${events:-0}; e++)); do
    same=1
    "$program" why "$trace" "e$e" >"$scratch/why" 2>/dev/null
    "$program" certify "$trace" "e$e" >"$cert" 2>/dev/null
    lines=$(($(wc -l <"$cert") - 1))
    head -n 1 "$cert" | grep -q " $e $lines\$" || same=0
    cmp -s <(sed 's/^#\([0-9]*\) .*/\1/' "$scratch/why") <(tail -n +2 "$cert" | sed 's/ .*//') || same=0
    "$program" check "$trace" "$cert" >"$scratch/out" 2>/dev/null || same=0
    echo "certificate: $lines events, $(grep -c ' \*$' "$scratch/why") in the data" | cmp -s - "$scratch/out" || same=0
    report "$example: e$e" "$same"
    [ $((e % 6)) = 5 ] || continue
    refuses "$example: e$e of another trace" "$cert" "$other"
    for ((k = 1; k <= lines; k++)); do
      counted "$cert" $((lines - 1)) | sed "$((k + 1))d" >"$bad"
      refuses "$example: e$e without line $k" "$bad" "$trace"
      counted "$cert" $((lines + 1)) | sed "$((k + 1))p" >"$bad"
      refuses "$example: e$e with line $k twice" "$bad" "$trace"
      sed "$((k + 1))s/ [dhc]:[0-9]*\$//" "$cert" >"$bad"
      cmp -s "$cert" "$bad" || refuses "$example: e$e, line $k without its last source" "$bad" "$trace"
      sed "$((k + 1))s/\$/ c:$((e + 1))/" "$cert" >"$bad"
      refuses "$example: e$e, line $k with a source too many" "$bad" "$trace"
    done
    sed "1s/ $e \([0-9]*\)\$/ $((e - 1)) \1/" "$cert" >"$bad"
    refuses "$example: e$e said to be of the event before" "$bad" "$trace"
  done
  [ "${events:-0}" -gt 0 ] || report "$example" 0
done
finish certify
