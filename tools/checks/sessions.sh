#!/usr/bin/env bash
# Runs explore on each row of sessions.tsv, on sessions at the limits of a line, of the input and of the changes that are kept,
# with keys and outputs that fail, and at a terminal, where each line is typed once the ones before it are answered.
# WHYLINE names another program than that of tools/program.
set -u
source "$(dirname "$0")/counting.bash"
program=$(readlink -f "${WHYLINE:-$(tools/program)}")
checks=$PWD/tools/checks
traces=$scratch/traces

record() { # NAME SOURCE WORD..
  local name=$1 source=$2
  shift 2
  "$program" record "$source" -o "$traces/$name" "$@" >/dev/null 2>&1 || report "a recording of $name" 0
}

explore() { # NAME STATUS TRACE: the keys are in the file `lines`, and what is due in the file `wanted`
  local same=1
  "$program" explore "$traces/$3" <"$scratch/lines" >"$scratch/out" 2>/dev/null
  [ $? = "$2" ] || same=0
  cmp -s "$scratch/wanted" "$scratch/out" || same=0
  report "$1" "$same"
}

put() { # TEXT: with the escapes of %b and a line feed more, or nothing for -
  [ "$1" = - ] || printf '%b\n' "$1"
}

times() { # COUNT LINE
  yes "$2" | head -n "$1"
}

long() { # COUNT: a line of so many bytes, without its end
  head -c "$1" /dev/zero | tr '\0' x
}

mkdir "$traces"
printf 'class Main { public static void main(String[] a) { } }' >"$scratch/empty.java"
printf 'class Main {\n  public static void main(String[] a) {\n    int n = 1;\n    if (n > 3) {\n      System.out.println(n);\n    }\n  }\n  void alone() {\n    alone();\n  }\n}\n' >"$scratch/never.java"
printf 'class Main { static int n = 7; public static void main(String[] a) { } }' >"$scratch/static.java"
printf '100,200,300,40' >"$scratch/amounts"
record first examples/first.java
record overridden examples/overridden.java
record bank "$checks/bank.java" -i "$scratch/amounts"
record empty "$scratch/empty.java"
record never "$scratch/never.java"
record static "$scratch/static.java"

while IFS=$'\t' read -r trace status lines text || [ -n "$trace" ]; do
  case $trace in '#'* | '') continue ;; esac
  [ "$lines" = - ] && lines=''
  printf '%b' "$lines" >"$scratch/lines"
  put "$text" >"$scratch/wanted"
  explore "$trace: $lines" "$status" "$trace"
done <"$checks/sessions.tsv"

# A line has at most 4,096 bytes before its line feed or the end of the input, a carriage return that is dropped among them.
print='#8 line 8 print 5'
while IFS=$'\t' read -r count end status text; do
  [ "$end" = - ] && end=''
  { printf 'ask p0\n' && long "$count" && printf '%b' "$end"; } >"$scratch/lines"
  put "$print\n$text" >"$scratch/wanted"
  explore "$count bytes and $end" "$status" first
done <<'ROWS'
4096	\nup\n	0	no such\n#7 line 6 set y = 5
4096	-	0	no such
4095	\r\n	0	no such
4097	\nup\n	8	too long: line
4097	-	8	too long: line
4096	\r\nup\n	8	too long: line
100000	\nup\n	8	too long: line
ROWS
{ printf 'quit\n' && long 4097; } >"$scratch/lines"
put - >"$scratch/wanted"
explore "a line that is too long behind quit" 0 first

# No line reaches past byte 16,777,216, its line feed counted with it; a line's own limit is tested first.
times 4095 "$(long 4095)" >"$scratch/most"
while IFS=$'\t' read -r count end answers status text; do
  [ "$end" = - ] && end=''
  { cat "$scratch/most" && long "$count" && printf '%b' "$end"; } >"$scratch/lines"
  { times "$answers" 'no such' && put "$text"; } >"$scratch/wanted"
  explore "$((4095 * 4096 + count)) bytes and $end" "$status" first
done <<'ROWS'
4095	\n	4096	0	-
4096	-	4096	0	-
4095	\nx	4096	8	too long: input
4095	\n\n	4096	8	too long: input
4096	\n	4095	8	too long: input
4097	-	4095	8	too long: line
ROWS

# Of the changes the last 64 are kept.
start='#0 line 1 init Main'
{ times 65 'go 0' && times 65 undo; } >"$scratch/lines"
{ times 129 "$start" && put 'nothing to undo'; } >"$scratch/wanted"
explore "65 changes, undone" 0 first
{ times 64 'go 0' && times 65 undo; } >"$scratch/lines"
{ times 127 "$start" && put 'none\nnothing to undo'; } >"$scratch/wanted"
explore "64 changes, undone" 0 first

# Lines that come in pieces, cut within a word, before a line feed and behind it.
pieces() { # PIECE..
  local piece
  for piece in "$@"; do
    printf '%b' "$piece"
    sleep 0.1
  done
}
pieces as 'k p' '0\r' '\n' 'up\nup\nu' 'ndo\nqui' 't' >"$scratch/lines"
put "$print\n#7 line 6 set y = 5\n#6 line 5 test true\n#7 line 6 set y = 5" >"$scratch/wanted"
explore "lines that come at once" 0 first
pieces as 'k p' '0\r' '\n' 'up\nup\nu' 'ndo\nqui' 't' | "$program" explore "$traces/first" >"$scratch/out" 2>/dev/null
cmp -s "$scratch/wanted" "$scratch/out" && report "lines that come in pieces" 1 || report "lines that come in pieces" 0

# What is wrong before the first line, and keys and outputs that fail.
refused() { # NAME STATUS LINE TRACE
  printf 'ask p0\n' >"$scratch/lines"
  put "$3" >"$scratch/wanted"
  explore "$1" "$2" "$4"
}
head -c 100 "$traces/first" >"$traces/cut"
refused "a trace that isn't there" 3 "absent: $traces/none" none
refused "a trace that is cut" 5 'trace: Cut at byte 100' cut
refused "a source for a trace" 5 'trace: Damaged at byte 0, Magic' ../never.java
refused "a folder for a trace" 7 'fault: shelf' ../traces
"$program" explore "$traces/first" <"$scratch" >"$scratch/out" 2>/dev/null
[ $? = 7 ] && [ "$(cat "$scratch/out")" = 'fault: keys' ] && report "a folder for keys" 1 || report "a folder for keys" 0
printf 'ask p0\n' | "$program" explore "$traces/first" >/dev/full 2>/dev/null
[ "${PIPESTATUS[1]}" = 7 ] && report "an output that is full" 1 || report "an output that is full" 0
printf '' | "$program" explore "$traces/first" >/dev/full 2>/dev/null
[ "${PIPESTATUS[1]}" = 0 ] && report "nothing written to an output that is full" 1 || report "nothing written to an output that is full" 0

# A trace that changes, goes or can't be read while a session is over it: what was said stands, and the line of the refusal is behind it.
# No block of it is held once it is opened: event 69000 is in block 67, and event 3000 in block 2.
printf 'class Loop { public static void main(String[] a) { int i = 0; while (i < 35000) { i = i + 1; } } }' >"$scratch/loop.java"
record loop "$scratch/loop.java"
mkfifo "$scratch/keys"
under() { # NAME STATUS LINE COMMAND..: the command is done to the trace once the first line is answered
  local name=$1 status=$2 line=$3 pid same=1
  shift 3
  cp "$traces/loop" "$traces/live"
  "$program" explore "$traces/live" <"$scratch/keys" >"$scratch/out" 2>/dev/null &
  pid=$!
  exec 4>"$scratch/keys"
  printf 'go 69000\n' >&4
  for _ in $(seq 6000); do [ -s "$scratch/out" ] && break; sleep 0.05; done
  "$@"
  printf 'go 3000\n' >&4
  exec 4>&-
  wait "$pid"
  [ $? = "$status" ] || same=0
  [ "$(sed 's/^#69000 .*/said/' "$scratch/out")" = "said
$line" ] || same=0
  report "$name" "$same"
  rm -rf "$traces/live"
}
changed() { printf '\377' | dd of="$traces/live" bs=1 seek=120000 conv=notrunc 2>/dev/null; }
in_the_way() { rm "$traces/live" && mkdir "$traces/live"; }
under "a trace that changes under a session" 5 'trace: Changed block 2' changed
under "a trace that goes" 3 "absent: $traces/live" rm "$traces/live"
under "a trace that can't be read any more" 7 'fault: shelf' in_the_way

# Another command leaves the keys as they are.
left=$(printf 'left\n' | { "$program" output "$traces/first" >/dev/null && cat; })
[ "$left" = left ] && report "keys of another command" 1 || report "keys of another command" 0

# At a terminal, ended by quit and by the end of the input.
at_terminal() { # NAME: the session is on the standard input, as the terminal shows it
  python3 "$checks/terminal.py" "$program" explore "$traces/first"
  report "at a terminal: $1" $((1 - $?))
}
at_terminal "a session that quits" <<'SESSION'
ask p0
#8 line 8 print 5
sources
control #2 line 2 call Main.main
data #7 line 6 set y = 5
up
#7 line 6 set y = 5
whynot 6
no such
show y
= 0
frames
#2 Main.main
 args.0 = java.lang.String[]#1
 x.1 = 2
 y.2 = 0
undo
#8 line 8 print 5
list
#2 line 2 call Main.main
#4 line 3 set x = 2 *
#6 line 5 test true
#7 line 6 set y = 5 *
#8 line 8 print 5 *
quit
SESSION
at_terminal "a session whose input ends" <<'SESSION'
up
no such
go 9
#9 line 9 return
undo
none
undo
nothing to undo
SESSION

finish sessions
