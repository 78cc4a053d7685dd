#!/usr/bin/env bash
# Runs each example and compares what it writes and its status with the stored ones, and then one call for each other
# status. Ends with a failure if one differs. WHYLINE names another program than that of tools/program.
set -u
source "$(dirname "$0")/counting.bash"
program=$(readlink -f "${WHYLINE:-$(tools/program)}")

expect() { # NAME STATUS FILE WORD..: the call writes what the file holds, and has this status
  local name=$1 status=$2 wanted=$3 same=1
  shift 3
  "$program" "$@" >"$scratch/out" 2>"$scratch/err"
  [ $? = "$status" ] || same=0
  cmp -s "$scratch/out" "$wanted" || same=0
  report "$name" "$same"
}

expect_line() { # NAME STATUS LINE WORD..
  local name=$1 status=$2
  printf '%s\n' "$3" >"$scratch/wanted"
  shift 3
  expect "$name" "$status" "$scratch/wanted" "$@"
}

# (tools/checks/java has the corners of operators, casts and texts, with what real Java prints)
for source in examples/*.java tools/checks/java/*.java; do
  status=0
  [ "$source" = examples/refused.java ] && status=4
  expect "$source" "$status" "${source%.java}.out" run "$source"
done

printf 'class Main { public static void main(String[] a) { while (1 < 2) { } } }' >"$scratch/endless.java"
printf 'class Main { public static void main(String[] a) { int x = y; } }' >"$scratch/unknown.java"
printf 'class A { int x = 0x; }' >"$scratch/literal.java"
printf 'class A { } /*' >"$scratch/comment.java"
printf 'class A { } // \377' >"$scratch/bytes.java"
printf 'class Main { int x = ; }' >"$scratch/syntax.java"
printf 'class Main { public static void main(String[] a) throws Exception { System.out.print((char) System.in.read()); int x = 1 / a.length; } }' >"$scratch/reads.java"
printf 'xyz' >"$scratch/letters"
printf 'interface I { void f(); }\nclass A implements I { }\n' >"$scratch/missing.java"
printf 'class A {\n  void f() {\n    int i = 0;\n    while (i < 3) { break out; }\n  }\n}\n' >"$scratch/jump.java"
: >"$scratch/empty.java"
head -c 1048577 /dev/zero | tr '\0' ' ' >"$scratch/long.java"
head -c 16777216 /dev/zero | tr '\0' 'x' >"$scratch/full"
head -c 16777217 /dev/zero | tr '\0' 'x' >"$scratch/over"

usage='usage: whyline COMMAND WORDS'

expect_line "the step limit" 0 '-- step limit' run "$scratch/endless.java"
expect_line "a step too few" 0 '-- step limit' run --steps 19 examples/first.java
expect_line "as many steps as it takes" 0 $'5\n-- finished' run --steps 20 examples/first.java
expect_line "the steps before the file" 0 '-- step limit' run --steps=3 "$scratch/endless.java"
expect_line "an input, and what is uncaught" 0 $'x\n-- uncaught java.lang.ArithmeticException, line 1' run "$scratch/reads.java" -i "$scratch/letters"
expect_line "an input before the file" 0 $'x\n-- uncaught java.lang.ArithmeticException, line 1' run -i "$scratch/letters" --steps 100 "$scratch/reads.java"
expect_line "as many bytes as an input may have" 0 $'x\n-- uncaught java.lang.ArithmeticException, line 1' run "$scratch/reads.java" -i "$scratch/full"
expect_line "no words" 2 "$usage"
expect_line "a word too many" 2 "$usage" run examples/first.java more
expect_line "a name without letters" 2 "$usage" run ''
expect_line "no name" 2 "$usage" run
expect_line "a word in capitals" 2 "$usage" Run examples/first.java
expect_line "words in another order" 2 "$usage" examples/first.java run
expect_line "another word" 2 "$usage" rerun examples/first.java
expect_line "a recording without a trace's name" 2 "$usage" record examples/first.java
expect_line "a trace's name for a run" 2 "$usage" run examples/first.java -o "$scratch/t"
expect_line "why without a question" 2 "$usage" why "$scratch/t"
expect_line "steps for an output" 2 "$usage" output "$scratch/t" --steps 5
expect_line "a name that begins with a minus sign" 2 "$usage" run -x
expect_line "an option without its word" 2 "$usage" run examples/first.java -i
expect_line "no steps" 2 "$usage" run examples/first.java --steps 0
expect_line "too many steps" 2 "$usage" run examples/first.java --steps 50000001
expect_line "steps twice" 2 "$usage" run --steps 5 examples/first.java --steps=5
expect_line "a word that isn't UTF-8" 2 "$usage" run "$(printf '\377')"
expect_line "no such file" 3 "absent: $scratch/none.java" run "$scratch/none.java"
expect_line "no such input" 3 "absent: $scratch/none" run "$scratch/unknown.java" -i "$scratch/none"
expect_line "neither file" 3 "absent: $scratch/none.java" run "$scratch/none.java" -i "$scratch/none"
expect_line "a name without a declaration" 4 'program: UnknownName at line 1 token 17' run "$scratch/unknown.java"
expect_line "a method that is missing" 4 'program: NotImplemented at line 2 token 10' run "$scratch/missing.java"
expect_line "a jump without a target" 4 'program: BadJump at line 4 token 20' run "$scratch/jump.java"
expect_line "an empty file" 4 'program: NoMain at line 1 token 0' run "$scratch/empty.java"
expect_line "a literal with a fault" 4 'program: BadLiteral at byte 18' run "$scratch/literal.java"
expect_line "a comment that isn't closed" 4 'program: BadToken at byte 12' run "$scratch/comment.java"
expect_line "a text that isn't UTF-8" 4 'program: NotUtf8 at byte 15' run "$scratch/bytes.java"
expect_line "a folder in place of a file" 7 'fault: shelf' run examples
expect_line "a folder in place of an input" 7 'fault: shelf' run examples/first.java -i examples
expect_line "an input of a byte too many" 8 "too long: $scratch/over" run "$scratch/unknown.java" -i "$scratch/over"
expect_line "a file of a byte too many" 8 "too long: $scratch/long.java" run "$scratch/long.java"

# A trace, and what is told of it.
trace=$scratch/first.trace
expect_line "a recording" 0 $'5\n-- finished\n-- recorded 10 events' record examples/first.java -o "$trace"
expect_line "the options before the file" 0 $'5\n-- finished\n-- recorded 10 events' record -o "$trace" --steps=20 examples/first.java
expect_line "an output of a trace" 0 $'5\n-- finished' output "$trace"
expect_line "an audit" 0 'audit: equal' audit "$trace"
expect_line "why" 0 $'#2 line 2 call Main.main\n#4 line 3 set x = 2 *' why "$trace" e4
for word in x4 q p p12345678901 p4294967296 e4294967296 static:int.x@3 elem:1@9 static:java.util.X.y@3 local:2:2; do
  expect_line "a word that is no question, '$word'" 6 'question: not read' why "$trace" "$word"
done
while read -r word number; do
  expect_line "a word that names nothing, $word" 6 "question: no such $number" why "$trace" "$word"
done <<'ROWS'
p1 1
e10 10
local:2:2@5 5
local:2:2@11 11
elem:1:0@9 9
static:Main.y@3 3
static:Throwable.message@3 3
ROWS
while read -r word last; do
  "$program" why "$trace" "$word" >"$scratch/out" 2>/dev/null
  [ $? = 0 ] && tail -n 1 "$scratch/out" | grep -q "^#$last " && report "a word that names an event, $word" 1 || report "a word that names an event, $word" 0
done <<'ROWS'
p0 8
e04 4
local:2:2@7 5
local:2:2@8 7
ROWS
printf 'class S {\n  static int x;\n  public static void main(String[] a) {\n    Object e = new Exception();\n    System.out.println(x);\n  }\n}\n' >"$scratch/made.java"
"$program" record "$scratch/made.java" -o "$scratch/made.trace" >/dev/null 2>&1
expect_line "a static field, made by its class's initialization" 0 '#0 line 1 init S *' why "$scratch/made.trace" static:S.x@3
expect_line "an inherited field, made with its object" 0 $'#2 line 3 call S.main\n#4 line 4 new java.lang.Exception *' why "$scratch/made.trace" field:4:java.lang.Throwable.message@5
expect_line "a field before its object" 6 'question: no such 4' why "$scratch/made.trace" field:4:java.lang.Throwable.message@4
expect_line "a field of an array" 6 'question: no such 2' why "$scratch/made.trace" field:1:java.lang.Throwable.message@2
expect_line "what can be asked" 0 'p0 #8 line 8 print 5' questions "$trace"
expect_line "what a test affects" 0 $'#7 line 6 set y = 5\n#8 line 8 print 5' affects "$trace" e6
expect_line "what a value affects" 0 $'#6 line 5 test true *\n#7 line 6 set y = 5 *\n#8 line 8 print 5 *' affects "$trace" e4
expect_line "what is used no more" 0 'nothing later' affects "$trace" e5
expect_line "what no event affects" 6 'question: no such 10' affects "$trace" e10
printf 'class Main {\nstatic void f(int n) {\nif (n > 1) {\nSystem.out.println(n);\n}\n}\npublic static void main(String[] a) {\nf(1);\nf(2);\n}\n}\n' >"$scratch/guarded.java"
guarded=$scratch/guarded.trace
"$program" record "$scratch/guarded.java" -o "$guarded" >/dev/null 2>&1
expect_line "a statement that ran in another call" 6 'question: line 4.1 ran 1 times, first before #11' whynot "$guarded" 4
expect_line "a guard that was false in a call" 0 'line 3 arm true not taken: 1 tested false, first #6, last #6' scope "$guarded" 4 4
expect_line "a guard that was passed in a call" 6 'question: line 4.1 passed at #10' scope "$guarded" 4 8
expect_line "a guard that was passed further in" 6 'question: line 4.1 passed at #10' scope "$guarded" 4 2
expect_line "a statement to which the call leads no way" 0 'no call leads here' scope "$guarded" 8 4
expect_line "an event that is no call" 6 'question: no such 6' scope "$guarded" 4 6
expect_line "no event" 6 'question: no such 14' scope "$guarded" 4 14
certificate=$scratch/first.cert
"$program" certify "$trace" p0 >"$certificate" 2>/dev/null
expect_line "the certificate of a print" 0 "whycert 1 $(tail -c 32 "$trace" | od -An -v -tx1 | tr -d ' \n') 8 5"$'\n2\n4 c:2\n6 c:2 d:4\n7 d:4 c:6\n8 c:2 d:7' certify "$trace" p0
expect_line "a good certificate" 0 'certificate: 5 events, 3 in the data' check "$trace" "$certificate"
sed 's/^7 d:4 c:6$/7 d:4/' "$certificate" >"$scratch/spoilt.cert"
expect_line "a certificate without a source" 11 'certificate: event 7' check "$trace" "$scratch/spoilt.cert"
sed '1s/5$/6/; s/^6 c:2 d:4$/5 c:2\n&/' "$certificate" >"$scratch/spoilt.cert"
expect_line "a certificate with an event too many" 11 'certificate: event 5' check "$trace" "$scratch/spoilt.cert"
: >"$scratch/spoilt.cert"
expect_line "an empty certificate" 11 'certificate: not read' check "$trace" "$scratch/spoilt.cert"
expect_line "a certificate of another trace" 11 'certificate: other trace' check "$scratch/made.trace" "$certificate"
expect_line "no certificate" 3 "absent: $scratch/none.cert" check "$trace" "$scratch/none.cert"
expect_line "a certificate, and no trace" 3 "absent: $scratch/none.trace" check "$scratch/none.trace" "$scratch/none.cert"
head -c 100 "$trace" >"$scratch/cut.trace"
expect_line "a certificate of a trace that is cut" 5 'trace: Cut at byte 100' check "$scratch/cut.trace" "$scratch/none.cert"
expect_line "a statement that ran" 6 'question: line 8.1 ran 1 times, first before #8' whynot "$trace" 8
expect_line "a line without a statement" 6 'question: no such 99' whynot "$trace" 99
for word in 0 0.1 5.0 5. 5.1.1 x; do
  expect_line "a word that is no statement, '$word'" 6 'question: not read' whynot "$trace" "$word"
done
expect_line "a place without a statement" 6 'question: no such 8' whynot "$trace" 8.2
expect_line "a statement with zeros in front" 6 'question: line 8.1 ran 1 times, first before #8' whynot "$trace" 08.01
expect_line "whynot without a statement" 2 "$usage" whynot "$trace"
expect_line "questions with a word too many" 2 "$usage" questions "$trace" p0
printf 'class Main {\n  public static void main(String[] a) {\n    int n = 1;\n    if (n > 3) {\n      System.out.println(n);\n    }\n  }\n  void alone() {\n    alone();\n  }\n}\n' >"$scratch/never.java"
expect_line "a recording of a test that is false" 0 $'-- finished\n-- recorded 7 events' record "$scratch/never.java" -o "$scratch/never.trace"
expect_line "what never began" 0 $'whynot 5.1\nwhynot 9.1' questions "$scratch/never.trace"
expect_line "an arm that was not taken" 0 'line 4 arm true not taken: 1 tested false, first #5, last #5' whynot "$scratch/never.trace" 5
expect_line "a method that nothing calls" 0 'no call leads here' whynot "$scratch/never.trace" 9
printf 'class Main {\n  public static void main(String[] a) {\n    int i = 0;\n    while (i < 9) {\n      System.out.print(i);\n      i = i + 1;\n    }\n    System.out.println();\n  }\n}\n' >"$scratch/stopped.java"
expect_line "a loop that the step limit stops" 0 $'0\n-- step limit\n-- recorded 8 events' record "$scratch/stopped.java" -o "$scratch/stopped.trace" --steps 18
expect_line "a line behind it" 0 'line 4 did not go on: run ended' whynot "$scratch/stopped.trace" 8
expect_line "a recording that the step limit stops" 0 $'-- step limit\n-- recorded 5 events' record examples/first.java -o "$scratch/short.trace" --steps 5
expect_line "its output" 0 '-- step limit' output "$scratch/short.trace"
expect_line "no such trace" 3 "absent: $scratch/none" why "$scratch/none" p0
expect_line "a source for a trace" 5 'trace: Damaged at byte 0, Magic' output examples/first.java
expect_line "an empty trace" 5 'trace: Cut at byte 0' audit "$scratch/empty.java"
head -c 100 "$trace" >"$scratch/cut.trace"
expect_line "a trace that is cut" 5 'trace: Cut at byte 100' why "$scratch/cut.trace" p0
(cat "$trace" && printf 'x') >"$scratch/more.trace"
expect_line "a byte behind the seal" 5 "trace: Damaged at byte $(wc -c <"$trace"), After" output "$scratch/more.trace"
expect_line "a recording of no program" 4 'program: UnknownName at line 1 token 17' record "$scratch/unknown.java" -o "$scratch/unmade.trace"
[ ! -e "$scratch/unmade.trace" ] && report "no trace of it" 1 || report "no trace of it" 0
expect_line "a trace in a folder that isn't there" 7 'fault: recorder' record examples/first.java -o "$scratch/none/first.trace"
expect_line "a trace on a disk that is full" 7 'fault: recorder' record examples/first.java -o /dev/full
expect_line "a folder in place of a trace" 7 'fault: shelf' output examples
truncate -s 1073741825 "$scratch/long.trace"
expect_line "a trace of a byte too many" 8 "too long: $scratch/long.trace" output "$scratch/long.trace"
rm "$scratch/long.trace"

"$program" run "$scratch/syntax.java" >"$scratch/out" 2>/dev/null
[ $? = 4 ] && grep -qx 'program: Syntax at line 1 token 6' "$scratch/out" && report "tokens without a tree" 1 || report "tokens without a tree" 0

"$program" run examples/first.java >/dev/full 2>/dev/null
[ $? = 7 ] && report "an output that is full" 1 || report "an output that is full" 0

(cd "$scratch" && "$program" run endless.java >here 2>/dev/null)
printf -- '-- step limit\n' | cmp -s - "$scratch/here" && report "the caller's folder" 1 || report "the caller's folder" 0

finish examples
