#!/usr/bin/env bash
# Compares what `whylens expect` writes of the examples, over outputs that are right, wrong in each line, too short and too long, with what
# expects.py says by the texts of other commands; and the lines and statuses of what it refuses.
# WHYLINE and WHYLENS name other programs than those of tools/program.
set -u
source "$(dirname "$0")/counting.bash"
whyline=$(readlink -f "${WHYLINE:-$(tools/program)}")
whylens=$(readlink -f "${WHYLENS:-$(tools/program whylens)}")
trace=$scratch/trace
want=$scratch/want

wanted() { # SOURCE: writes what is due for the trace and the file want
  local line
  python3 tools/checks/expects.py "$scratch/output" "$scratch/events" "$scratch/questions" "$1" "$want" >"$scratch/told" || return 1
  while IFS= read -r line; do
    case $line in
      'show e'*) "$whylens" show "$trace" "${line#show }" ;;
      'whynot '*) echo "$line" && "$whyline" whynot "$trace" "${line#whynot }" ;;
      *) printf '%s\n' "$line" ;;
    esac
  done <"$scratch/told" >"$scratch/wanted" 2>/dev/null
}

compare() { # WHAT SOURCE: the file want
  local same=1
  wanted "$2" || same=0
  "$whylens" expect "$trace" "$want" >"$scratch/out" 2>/dev/null || same=0
  cmp -s "$scratch/wanted" "$scratch/out" || same=0
  report "expect $2, $1" "$same"
}

cat >"$scratch/Says.java" <<'J'
class Says {
  static int turns = 0;

  public static void main(String[] args) {
    while (turns < 3) {
      System.out.print("turn " + turns + (turns == 1 ? "\r\n" : ";"));
      turns = turns + 1;
    }
    System.out.println();
    System.out.println(turns == 3 ? "ü < 3" : "none");
    if (turns > 3) {
      System.out.println("more");
      System.out.print("and more");
    }
    System.out.print("end");
  }
}
J
for source in examples/*.java examples/bugs/*.java "$scratch/Says.java"; do
  input=()
  [ "$source" = examples/bugs/Input.java ] && input=(-i examples/bugs/size.txt)
  "$whyline" record "$source" -o "$trace" "${input[@]}" >/dev/null 2>&1 || continue
  "$whyline" output "$trace" >"$scratch/output" 2>/dev/null
  "$whyline" questions "$trace" >"$scratch/questions" 2>/dev/null
  "$whylens" events "$trace" >"$scratch/events" 2>/dev/null
  cp "$scratch/output" "$want" && compare 'all that output writes' "$source"
  sed '$d' "$scratch/output" >"$want" && compare 'its output' "$source"
  lines=$(wc -l <"$want")
  [ "$lines" -gt 12 ] && lines=12
  sed '$d' "$scratch/output" | sed 's/$/\r/' >"$want" && compare 'other line ends' "$source"
  sed '$d' "$scratch/output" | head -c -1 >"$want" && compare 'no last line end' "$source"
  sed '$d' "$scratch/output" >"$want" && echo 'and this' >>"$want" && compare 'a line more' "$source"
  : >"$want" && compare 'nothing' "$source"
  for ((n = 1; n <= lines; n++)); do
    sed '$d' "$scratch/output" | sed "${n}s/\$/x/" >"$want" && compare "line $n longer" "$source"
    sed '$d' "$scratch/output" | sed "${n}s/.\$//" >"$want" && compare "line $n shorter" "$source"
    sed '$d' "$scratch/output" | sed "${n}q" >"$want" && compare "lines to $n" "$source"
  done
done

refuse() { # STATUS LINE WORD..
  local same=1 status=$1
  printf '%s\n' "$2" >"$scratch/wanted"
  shift 2
  "$whylens" expect "$@" >"$scratch/out" 2>/dev/null
  [ $? = "$status" ] && cmp -s "$scratch/wanted" "$scratch/out" || same=0
  report "expect $*" "$same"
}
refuse 3 "absent: $scratch/none" "$scratch/none" "$want"
refuse 3 "absent: $scratch/none" "$trace" "$scratch/none"
head -c 200 "$trace" >"$scratch/cut"
refuse 5 "$("$whyline" output "$scratch/cut" 2>/dev/null)" "$scratch/cut" "$want"
refuse 5 "$("$whyline" output "$want" 2>/dev/null)" "$want" "$trace"
refuse 2 'usage: whylens COMMAND WORDS, or whylens --help' "$trace"
refuse 2 'usage: whylens COMMAND WORDS, or whylens --help' "$trace" "$want" --all
finish expects
