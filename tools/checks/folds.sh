#!/usr/bin/env bash
# Compares what `whylens show`, `slice` and `events` write of the traces of the examples with the folding, by folds.py, of what
# `whyline why` answers there; and the lines and statuses of what they refuse with those of whyline.
# WHYLINE and WHYLENS name other programs than those of tools/program.
set -u
source "$(dirname "$0")/counting.bash"
whyline=$(readlink -f "${WHYLINE:-$(tools/program)}")
whylens=$(readlink -f "${WHYLENS:-$(tools/program whylens)}")
folds=$PWD/tools/checks/folds.py
trace=$scratch/trace

expect() { # NAME WORD..: whylens writes what the file `wanted` holds
  local name=$1 same=1
  shift
  "$whylens" "$@" >"$scratch/out" 2>/dev/null || same=0
  cmp -s "$scratch/wanted" "$scratch/out" || same=0
  report "$name" "$same"
}

refuse() { # WHYLINE'S WORDS -- WHYLENS'S WORDS: both write the same line and end with the same status
  local words=() same=1 status
  while [ "$1" != -- ]; do words+=("$1") && shift; done
  shift
  "$whyline" "${words[@]}" >"$scratch/wanted" 2>/dev/null
  status=$?
  "$whylens" "$@" >"$scratch/out" 2>/dev/null
  [ $? = "$status" ] && [ "$status" != 0 ] && cmp -s "$scratch/wanted" "$scratch/out" || same=0
  report "$*" "$same"
}

folded() { # SOURCE QUESTION: the answer, in all its forms
  "$whyline" why "$trace" "$2" >"$scratch/why" 2>/dev/null
  local options
  for options in '' --data --all '--all --data'; do
    # shellcheck disable=SC2086
    python3 "$folds" show "$1" "$scratch/why" $options >"$scratch/wanted"
    # shellcheck disable=SC2086
    expect "show $1 $2 $options" show "$trace" "$2" $options
  done
  python3 "$folds" slice "$1" "$scratch/why" >"$scratch/wanted"
  expect "slice $1 $2" slice "$trace" "$2"
}

listed() { # SOURCE: all events, and those of each line
  "$whylens" events "$trace" >"$scratch/events" 2>/dev/null
  local lines same=1
  lines=$(sed -n 's/^#[0-9]* line \([0-9]*\) .*/\1/p' "$scratch/events" | sort -un)
  [ "$(wc -l <"$scratch/events")" = "$2" ] || same=0
  cut -d' ' -f1 "$scratch/events" | cmp -s - <(seq -f '#%.0f' 0 "$(($2 - 1))") || same=0
  sed 's/ \*$//' "$scratch/why" | grep -vxFf "$scratch/events" >/dev/null && same=0
  report "events $1" "$same"
  local line
  for line in $lines; do
    grep "^#[0-9]* line $line " "$scratch/events" >"$scratch/wanted"
    expect "events $1 $line" events "$trace" "$line"
  done
}

for source in examples/*.java examples/bugs/*.java; do
  input=()
  [ "$source" = examples/bugs/Input.java ] && input=(-i examples/bugs/size.txt)
  "$whyline" record "$source" -o "$trace" "${input[@]}" >"$scratch/run" 2>/dev/null || continue
  count=$(sed -n 's/^-- recorded \([0-9]*\) events$/\1/p' "$scratch/run")
  prints=$("$whyline" questions "$trace" 2>/dev/null | sed -n 's/^\(p[0-9]*\) .*/\1/p')
  for question in $(printf '%s\n' "$prints" | sed -n '1p;$p' | sort -u) "e$((count - 1))"; do
    folded "$source" "$question"
  done
  listed "$source" "$count"
  stop=$(python3 "$folds" stop "$scratch/events")
  "$whylens" show "$trace" "e$stop" >"$scratch/wanted" 2>/dev/null
  grep -q '^-- uncaught' "$scratch/run" || "$whylens" show "$trace" "e$((count - 1))" >"$scratch/wanted" 2>/dev/null
  expect "show $source --stop" show "$trace" --stop
done

# a loop of 1,000 turns has few rows
cat >"$scratch/Loop.java" <<'J'
class Loop {
  public static void main(String[] args) {
    int sum = 0;
    for (int i = 0; i < 1000; i++) {
      if (i % 3 == 0) {
        sum = sum + i;
      }
    }
    System.out.println(sum);
  }
}
J
"$whyline" record "$scratch/Loop.java" -o "$trace" >/dev/null 2>&1
folded "$scratch/Loop.java" p0
rows=$("$whylens" show "$trace" p0 2>/dev/null | wc -l)
report "a loop of 1,000 turns: $rows rows" "$([ "$rows" -gt 0 ] && [ "$rows" -le 12 ] && echo 1 || echo 0)"

# what is refused is refused as whyline does
head -c 200 "$trace" >"$scratch/cut"
printf 'no trace' >"$scratch/none"
for asked in p9999999 e4294967295 q 'p'; do
  refuse why "$trace" "$asked" -- show "$trace" "$asked"
  refuse why "$trace" "$asked" -- slice "$trace" "$asked"
done
for file in "$scratch/cut" "$scratch/none" "$scratch/absent" examples/first.java; do
  refuse why "$file" p0 -- show "$file" p0
  refuse why "$file" p0 -- show "$file" --stop
  refuse why "$file" p0 -- slice "$file" p0
  refuse why "$file" p0 -- events "$file"
done
printf 'question: no such 4000\n' >"$scratch/wanted"
"$whylens" events "$trace" 4000 >"$scratch/out" 2>/dev/null
report "events of a line that has none" "$([ $? = 6 ] && cmp -s "$scratch/wanted" "$scratch/out" && echo 1 || echo 0)"
finish folds
