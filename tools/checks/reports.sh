#!/usr/bin/env bash
# Reads the pages that `whylens report` writes of the examples as a browser does, by reports.py, and compares them with the sources and with
# what whyline says of the same questions; and the lines and statuses of what it refuses with those of whyline.
# WHYLINE and WHYLENS name other programs than those of tools/program.
set -u
source "$(dirname "$0")/counting.bash"
whyline=$(readlink -f "${WHYLINE:-$(tools/program)}")
whylens=$(readlink -f "${WHYLENS:-$(tools/program whylens)}")
trace=$scratch/trace

read_page() { # SOURCE QUESTION
  local same=1 sources=() n
  "$whyline" why "$trace" "$2" >"$scratch/why" 2>/dev/null || same=0
  "$whylens" slice "$trace" "$2" >"$scratch/slice" 2>/dev/null || same=0
  "$whylens" report "$trace" "$2" >"$scratch/page" 2>/dev/null || same=0
  for n in $(sed -n 's/^#\([0-9]*\) .*/\1/p' "$scratch/why" | sed -n '1p;2p;$p'); do
    sources+=("$n" "$(printf 'ask e%s\nsources\n' "$n" | "$whyline" explore "$trace" 2>/dev/null)")
  done
  python3 tools/checks/reports.py "$scratch/page" "$1" "$scratch/why" "$scratch/slice" "${sources[@]}" 2>"$scratch/error" || same=0
  report "report $1 $2 $(tail -n 1 "$scratch/error")" "$same"
}

cat >"$scratch/Hostile.java" <<'J'
class Hostile {
  // </td></tr></table><script>alert("&amp;")</script> ü ' &#60;
  static String tag(String name) { return "<" + name + " id=\"e0\" href='#L1'>"; }
	public static void main(String[] args) {
    String text = tag("img src=x onerror=alert(1)") + "&lt;" + '"' + '<' + '&';
    if (text.length() > 3 && 1 < 2) { System.out.println(text + "</a>"); }
    System.out.println("<!-- " + 5 + " -->");
  }
}
J
printf 'class Ends {\r\n  public static void main(String[] a) {\r    System.out.println(a == null);\n  }\r\n}' >"$scratch/Ends.java"
for source in examples/*.java examples/bugs/*.java "$scratch/Hostile.java" "$scratch/Ends.java"; do
  input=()
  [ "$source" = examples/bugs/Input.java ] && input=(-i examples/bugs/size.txt)
  "$whyline" record "$source" -o "$trace" "${input[@]}" >"$scratch/run" 2>/dev/null || continue
  count=$(sed -n 's/^-- recorded \([0-9]*\) events$/\1/p' "$scratch/run")
  prints=$("$whyline" questions "$trace" 2>/dev/null | sed -n 's/^\(p[0-9]*\) .*/\1/p')
  for question in $(printf '%s\n' "$prints" | sed -n '1p;$p' | sort -u) "e$((count - 1))" e0; do
    read_page "$source" "$question"
  done
done

refuse() { # FILE QUESTION
  local same=1 status
  "$whyline" why "$1" "$2" >"$scratch/wanted" 2>/dev/null
  status=$?
  "$whylens" report "$1" "$2" >"$scratch/out" 2>/dev/null
  [ $? = "$status" ] && [ "$status" != 0 ] && cmp -s "$scratch/wanted" "$scratch/out" || same=0
  report "report $1 $2" "$same"
}
head -c 200 "$trace" >"$scratch/cut"
for asked in p9999999 e4294967295 q; do
  refuse "$trace" "$asked"
done
for file in "$scratch/cut" "$scratch/absent" examples/first.java; do
  refuse "$file" p0
done
finish reports
