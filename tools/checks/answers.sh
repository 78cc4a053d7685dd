#!/usr/bin/env bash
# Runs the program on each row of answers.tsv, and compares what it writes and its status with the row.
# A row is a kind of source, a status, an answer and the source, with a tab between them and the escapes of printf %b:
#   text   a whole source
#   main   the statements of a main
#   print  what a main prints
#   body   the statements of a method
#   world  the statements of a method beside the classes below; the answer is the rule alone
# WHYLINE names another program than that of tools/program.
set -u
source "$(dirname "$0")/counting.bash"
program=$(readlink -f "${WHYLINE:-$(tools/program)}")
rows=$PWD/tools/checks/answers.tsv
cd "$scratch" || exit 1

answer() { # STATUS: runs Main.java, and says whether the status is this one
  "$program" run Main.java >out 2>err
  [ $? = "$1" ]
}

check_text() { # NAME STATUS ANSWER
  local same=1
  answer "$2" || same=0
  printf '%b\n' "$3" | cmp -s - out || same=0
  report "$1" "$same"
}

check_rule() { # NAME STATUS RULE
  local same=1
  answer "$2" || same=0
  grep -qx "program: $3 at line 6 token [0-9]*" out || same=0
  report "$1" "$same"
}

times() { # COUNT TEXT
  local i
  for ((i = 0; i < $1; i++)); do printf '%s' "$2"; done
}

world='class A { A() { } A(int n) { } void f(int a, long b) { } void f(long a, int b) { } void g(long a) { } void g(int a) { }
  void k(String a) { } void k(B a) { } private int p() { return 1; } public int s() { return 1; } }
class B extends A { }
interface I { Object r(); int s(); } interface J extends I { String r(); }
abstract class C extends B implements J { }'

while IFS=$'\t' read -r kind status answer source || [ -n "$kind" ]; do
  case $kind in
    text) printf '%b' "$source" ;;
    main) printf 'class Main { public static void main(String[] args) { %b } }' "$source" ;;
    print) printf 'class Main { public static void main(String[] args) { System.out.println(%b); } }' "$source" ;;
    body) printf 'class A { void f() { %b } }' "$source" ;;
    world) printf '%s\nclass X { void f() { %b } }' "$world" "$source" ;;
    *) continue ;;
  esac >Main.java
  case $kind in
    world) check_rule "$source" "$status" "$answer" ;;
    *) check_text "$source" "$status" "$answer" ;;
  esac
done <"$rows"

main() { # STATEMENTS: the program whose main they are
  printf 'class Main { public static void main(String[] args) { %s } }' "$1" >Main.java
}

main "$(times 60 'if (1 < 2) { ')System.out.println($(times 120 '1+')1);$(times 60 '} ')"
check_text "blocks and sums as deep as a tree may be" 0 '121\n-- finished'

# A class below one that isn't there. The literal stands four levels deep, and each pair of parentheses is one more.
for groups in 296 297 100000; do
  printf 'class A extends B { int f = %s1%s; }' "$(times "$groups" '(')" "$(times "$groups" ')')" >Main.java
  if [ "$groups" = 296 ]; then
    check_text "a tree of 300 levels" 4 'program: UnknownName at line 1 token 3'
  else
    answer 4 && grep -qx 'program: Syntax at line 1 token [0-9]*' out
    report "a tree of more than 300 levels" $((1 - $?))
  fi
done

# A type has at most 255 pairs of brackets, those behind a name among them.
while read -r pairs behind tokens; do
  printf 'class A { int %sf%s; }' "$(times "$pairs" '[]')" "$(times "$behind" '[]')" >Main.java
  if [ "$tokens" = none ]; then
    answer 4 && grep -q '^program: Syntax' out
    report "$pairs and $behind pairs of brackets" $((1 - $?))
  else
    check_text "$pairs and $behind pairs of brackets" 4 "program: NoMain at line 1 token $tokens"
  fi
done <<'ROWS'
255 0 517
256 0 none
254 1 517
255 1 none
ROWS

head -c 1048576 /dev/zero | tr '\0' ' ' >Main.java
check_text "as many blanks as a file may have" 4 'program: NoMain at line 1 token 0'

{ times 2500 '/* a comment */ ' && printf 'class Main { public static void main(String[] args) { System.out.println(1); } }'; } >Main.java
check_text "a file that is read in many pieces" 0 '1\n-- finished'

finish answers
