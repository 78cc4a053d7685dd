#!/usr/bin/env bash
# Compares what `whylens diff` writes of runs of one source with what diffs.py finds in the bytes of their traces; asks what it says is to
# be asked; and compares the lines and statuses of what it refuses with those of whyline.
# WHYLINE and WHYLENS name other programs than those of tools/program.
set -u
source "$(dirname "$0")/counting.bash"
whyline=$(readlink -f "${WHYLINE:-$(tools/program)}")
whylens=$(readlink -f "${WHYLENS:-$(tools/program whylens)}")

record() { # NAME SOURCE INPUT [--steps N]
  local name=$1 source=$2
  printf '%b' "$3" >"$scratch/input"
  shift 3
  "$whyline" record "$source" -o "$scratch/$name.trace" -i "$scratch/input" "$@" >/dev/null 2>&1
  "$whylens" events "$scratch/$name.trace" >"$scratch/$name.events" 2>/dev/null
}

compare() { # WHAT: the traces good and bad
  local same=1
  python3 tools/checks/diffs.py "$scratch/good.trace" "$scratch/bad.trace" "$scratch/good.events" "$scratch/bad.events" "$scratch/bad.trace" \
    >"$scratch/wanted" || same=0
  "$whylens" diff "$scratch/good.trace" "$scratch/bad.trace" >"$scratch/out" 2>/dev/null || same=0
  cmp -s "$scratch/wanted" "$scratch/out" || same=0
  report "$1" "$same"
  asked=$(sed -n 's/^ask: //p' "$scratch/out")
  [ -n "$asked" ] || return
  local words
  read -r -a words <<<"$asked"
  case ${words[0]} in
    whyline) words[0]=$whyline ;;
    *) words[0]=$whylens ;;
  esac
  "${words[@]}" >/dev/null 2>&1 && report "$1: $asked" 1 || report "$1: $asked" 0
}

refuse() { # STATUS LINE WORD..
  local same=1 status=$1
  printf '%s\n' "$2" >"$scratch/wanted"
  shift 2
  "$whylens" diff "$@" >"$scratch/out" 2>/dev/null
  [ $? = "$status" ] && cmp -s "$scratch/wanted" "$scratch/out" || same=0
  report "diff $*" "$same"
}

cat >"$scratch/Sort.java" <<'J'
class Sort {
  static int count = 0;

  static int more(int by) {
    count = count + by;
    return count;
  }

  public static void main(String[] args) throws Exception {
    int c = System.in.read();
    int sum = 0;
    while (c >= 0) {
      if (c % 2 == 0) {
        sum = sum + more(c);
      } else {
        sum = sum - c;
      }
      c = System.in.read();
    }
    System.out.println("sum " + sum + (sum > 100 ? " is much" : " is little"));
    System.out.println(10 / (sum - 98));
  }
}
J
inputs=('' 'a' 'b' 'bb' 'bc' 'cb' 'ba' 'abc' 'acb' 'bd' 'ac')
for first in "${inputs[@]}"; do
  record good "$scratch/Sort.java" "$first"
  for second in "${inputs[@]}"; do
    record bad "$scratch/Sort.java" "$second"
    compare "inputs '$first' and '$second'"
  done
done
record good "$scratch/Sort.java" abc
for steps in 1 5 20 60 61 200; do
  record bad "$scratch/Sort.java" abc --steps "$steps"
  compare "$steps steps"
done
cat >"$scratch/Idle.java" <<'J'
class Idle {
  public static void main(String[] args) {
    for (;;);
  }
}
J
record good "$scratch/Idle.java" '' --steps 100
record bad "$scratch/Idle.java" '' --steps 200
compare 'an end that is another'
record bad examples/bugs/Search.java ''
refuse 6 'question: other source' "$scratch/good.trace" "$scratch/bad.trace"
refuse 3 "absent: $scratch/none" "$scratch/none" "$scratch/bad.trace"
refuse 3 "absent: $scratch/none" "$scratch/bad.trace" "$scratch/none"
head -c 200 "$scratch/bad.trace" >"$scratch/cut"
refuse 5 "$("$whyline" why "$scratch/cut" p0 2>/dev/null)" "$scratch/cut" "$scratch/bad.trace"
refuse 5 "$("$whyline" why "$scratch/cut" p0 2>/dev/null)" "$scratch/bad.trace" "$scratch/cut"
refuse 2 'usage: whylens COMMAND WORDS, or whylens --help' "$scratch/bad.trace"
refuse 2 'usage: whylens COMMAND WORDS, or whylens --help' "$scratch/bad.trace" "$scratch/bad.trace" --all
finish diffs
