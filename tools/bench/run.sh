#!/usr/bin/env bash
# Times `./whyline run` on each program of tools/bench, and `javac` and `java -Xint` together on the same file where they are
# installed; then the loop of 3,900,000 events at a quarter, a half and all of its steps; then its recording beside the run alone
# and `sha256sum` of the trace, and what is asked of the trace. Prints times, the greatest memory and ratios. Nothing rests on
# them. WHYLINE names another program than that of tools/program.
set -u
cd "$(dirname "$0")/../.." || exit 1
program=$(readlink -f "${WHYLINE:-$(tools/program)}")
scratch=$(mktemp -d) || exit 1
trap 'rm -rf "$scratch"' EXIT
steps=50000000

seconds_of() { # WORD..: the least wall time of three runs, with the input from $scratch/in
  local best='' begin end took
  for _ in 1 2 3; do
    begin=$(date +%s%N)
    "$@" <"$scratch/in" >"$scratch/out" 2>&1 || { cat "$scratch/out" >&2; return 1; }
    end=$(date +%s%N)
    took=$((end - begin))
    if [ -z "$best" ] || [ "$took" -lt "$best" ]; then best=$took; fi
  done
  awk -v n="$best" 'BEGIN { printf "%.3f", n / 1e9 }'
}

memory_of() { # WORD..: the most memory of a run, in MB
  if [ -x /usr/bin/time ]; then
    /usr/bin/time -f '%M' -o "$scratch/memory" "$@" >/dev/null 2>&1
    awk '{ printf ", %d MB", $1 / 1024 }' "$scratch/memory"
  fi
}

compiled_and_run() { # SOURCE CLASS
  javac -d "$scratch" "$1" && java -Xint -cp "$scratch" "$2"
}

for i in $(seq 1 12000); do echo "$i $((i * 7 % 1000)) $((i % 13))"; done >"$scratch/numbers"

for source in tools/bench/*.java; do
  name=$(basename "$source" .java)
  words=(run "$source" --steps "$steps")
  : >"$scratch/in"
  if [ "$name" = Parse ]; then
    cp "$scratch/numbers" "$scratch/in"
    words+=(-i "$scratch/numbers")
  fi
  ours=$(seconds_of "$program" "${words[@]}") || exit 1
  cp "$scratch/out" "$scratch/ours"
  printf '%-8s whyline %s s%s' "$name" "$ours" "$(memory_of "$program" "${words[@]}")"
  if command -v javac >/dev/null 2>&1 && command -v java >/dev/null 2>&1; then
    theirs=$(seconds_of compiled_and_run "$source" "$name") || exit 1
    head -n -1 "$scratch/ours" | cmp -s - "$scratch/out" || { echo "; the outputs differ" >&2; exit 1; }
    awk -v a="$ours" -v b="$theirs" 'BEGIN { printf "; javac and java -Xint %s s; %.2f times as long", b, a / b }'
  fi
  printf '; %s\n' "$(tail -n 1 "$scratch/ours")"
done

for part in 4 2 1; do
  taken=$(seconds_of "$program" run tools/bench/Events.java --steps $((16000000 / part))) || exit 1
  printf 'Events, %d steps: %s s\n' $((16000000 / part)) "$taken"
done

measure() { # NAME WORD..: the time is left in `taken`
  local name=$1
  shift
  taken=$(seconds_of "$@") || exit 1
  printf 'Events, %s: %s s%s\n' "$name" "$taken" "$(memory_of "$@")"
}

events=tools/bench/Events.java
trace=$scratch/events.trace
measure run "$program" run "$events" --steps "$steps"
alone=$taken
measure record "$program" record "$events" -o "$trace" --steps "$steps"
recorded=$taken
count=$(sed -n 's/^-- recorded \([0-9]*\) events$/\1/p' "$scratch/out")
measure "sha256sum of $(wc -c <"$trace") bytes" sha256sum "$trace"
awk -v r="$recorded" -v a="$alone" -v h="$taken" \
  'BEGIN { printf "Events, record: %.2f times as long as run and sha256sum together\n", r / (a + h) }'
measure output "$program" output "$trace"
measure audit "$program" audit "$trace"
measure why "$program" why "$trace" p0
measure "why of one event" "$program" why "$trace" e9
measure "affects of the first event" "$program" affects "$trace" e0
measure certify "$program" certify "$trace" p0
"$program" certify "$trace" p0 >"$scratch/events.cert"
measure "check of $(wc -c <"$scratch/events.cert") bytes" "$program" check "$trace" "$scratch/events.cert"
tools/bench/stops "$program" "$trace" "$count" 'sum + i' >"$scratch/out" || exit 1
sed 's/^/Events, /' "$scratch/out"
