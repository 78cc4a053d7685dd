#!/usr/bin/env bash
# Changes the trace of examples/first.java and compares what the program answers about it: by the rows of traces.tsv, cut
# short, and with each bit flipped. The bytes are changed by traces.py. WHYLINE names another program than that of tools/program.
set -u
source "$(dirname "$0")/counting.bash"
program=$(readlink -f "${WHYLINE:-$(tools/program)}")
trace=$scratch/first.trace

"$program" record examples/first.java -o "$trace" >/dev/null 2>&1
if python3 tools/checks/traces.py "$program" "$trace" tools/checks/traces.tsv "$scratch" >"$scratch/answers"; then
  while read -r same name; do
    report "$name" "$same"
  done <"$scratch/answers"
else
  report "the changes" 0
fi
finish traces
