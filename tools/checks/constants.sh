#!/usr/bin/env bash
# Constant texts that double, line by line. All of a program's together may have 16,777,216 units: 16 units doubled 19 times have
# 16 fewer in all. With one line more it is want of memory, told within a second and in a gigabyte of address space, also of a trace
# whose head has such a source; and so are the constants of a body, and an expression that joins too much at once.
# WHYLINE names another program than that of tools/program.
set -u
source "$(dirname "$0")/counting.bash"
program=$(readlink -f "${WHYLINE:-$(tools/program)}")

doubled() { # TIMES BEGINNING: lines that each declare a text twice as long as the one before
  local k
  printf '%s K0 = "0123456789abcdef";\n' "$2"
  for ((k = 1; k <= $1; k++)); do printf '%s K%d = K%d + K%d;\n' "$2" "$k" "$((k - 1))" "$((k - 1))"; done
}

fields() { # TIMES
  printf 'class Main {\n%s\npublic static void main(String[] args) {\nSystem.out.println(K1);\n}\n}\n' "$(doubled "$1" 'static final String')"
}

locals() { # TIMES
  printf 'class Main {\npublic static void main(String[] args) {\n%s\nSystem.out.println(K1);\n}\n}\n' "$(doubled "$1" 'final String')"
}

expect() { # NAME STATUS OUTPUT WORD..
  local name=$1 status=$2 wanted=$3 same=1
  shift 3
  (ulimit -v 1048576 && timeout 10 "$program" "$@") >"$scratch/out" 2>/dev/null
  [ $? = "$status" ] || same=0
  [ -z "$wanted" ] || [ "$(cat "$scratch/out")" = "$wanted" ] || same=0
  report "$name" "$same"
}

twice=0123456789abcdef0123456789abcdef
fields 19 >"$scratch/most.java"
fields 20 >"$scratch/over.java"
fields 60 >"$scratch/far.java"
locals 19 >"$scratch/local.java"
locals 60 >"$scratch/locals.java"
expect "constant fields of almost all units" 0 "$twice"$'\n-- finished' run "$scratch/most.java"
expect "constant fields of too many units" 9 '' run "$scratch/over.java"
expect "constant fields that double sixty times" 9 '' run "$scratch/far.java"
expect "constants of a body of almost all units" 0 "$twice"$'\n-- finished' run "$scratch/local.java"
expect "constants of a body that double sixty times" 9 '' run "$scratch/locals.java"

# The same from a trace: the head of a sound one, with the source in it replaced.
printf 'class Main {\npublic static void main(String[] args) {\n}\n}\n' >"$scratch/small.java"
"$program" record "$scratch/small.java" -o "$scratch/small.trace" >/dev/null 2>&1
python3 - "$scratch" <<'PY'
import sys
room = sys.argv[1]
trace, small, far = (open(f"{room}/{name}", "rb").read() for name in ("small.trace", "small.java", "far.java"))
at = trace.index(small)
# the magic; a letter and the length of what follows in four bytes; the last number before the source is its length
old = int.from_bytes(trace[9:13], "big")
assert trace[at - 4 : at] == len(small).to_bytes(4, "big"), trace[:at]
changed = trace[:9] + (old + len(far) - len(small)).to_bytes(4, "big") + trace[13 : at - 4] + len(far).to_bytes(4, "big") + far
open(f"{room}/far.trace", "wb").write(changed + trace[at + len(small) :])
PY
expect "a trace of such a source" 9 '' output "$scratch/far.trace"
finish constants
