#!/usr/bin/env bash
# Completes lines as bash does, by the scripts of completions/, and compares the words that are offered.
# WHYLINE names another program than that of tools/program.
set -u
source "$(dirname "$0")/counting.bash"
program=$(readlink -f "${WHYLINE:-$(tools/program)}")
source completions/whyline.bash
source completions/whylens.bash
COMP_WORDBREAKS=$' \t\n"\'><=;|&(:'

offer() { # FUNCTION LINE WANTED: the words that are offered at the end of the line, in order
  local same=1 function=$1 line=$2 wanted=$3
  COMP_LINE=$line COMP_POINT=${#line}
  read -r -a COMP_WORDS <<<"$line"
  [ "${line% }" = "$line" ] || COMP_WORDS+=('')
  COMP_CWORD=$((${#COMP_WORDS[@]} - 1))
  COMPREPLY=()
  "$function"
  [ "$(printf '%s\n' "${COMPREPLY[@]:-}" | LC_ALL=C sort | tr '\n' ' ')" = "$wanted " ] || same=0
  report "$line" "$same"
}

"$program" record examples/discount.java -o "$scratch/discount.trace" >/dev/null 2>&1
"$program" record examples/overridden.java -o "$scratch/overridden.trace" >/dev/null 2>&1
offer _whyline 'whyline ' 'affects audit certify check explore gen migrate output questions record run scope why whynot'
offer _whyline 'whyline re' 'record'
offer _whyline './whyline wh' 'why whynot'
offer _whyline 'whyline run examples/co' 'examples/collatz.java examples/coupon.java'
offer _whyline 'whyline record -' '--steps -i -o'
offer _whyline 'whyline run -' '--steps -i'
offer _whyline 'whyline migrate -' '-o'
offer _whyline "whyline migrate $scratch/dis" "$scratch/discount.trace"
offer _whyline "whyline migrate $scratch/discount.trace -o $scratch/over" "$scratch/overridden.trace"
offer _whyline 'whyline run examples/first.java --steps ' ''
offer _whyline 'whyline run examples/first.java -i README.m' 'README.md'
offer _whyline "whyline output $scratch/dis" "$scratch/discount.trace"
offer _whyline "whyline audit $scratch/" "$scratch/discount.trace $scratch/overridden.trace"
offer _whyline "$program why $scratch/discount.trace p" 'p0 p1 p2'
offer _whyline "$program whynot $scratch/overridden.trace 1" '11.1'
offer _whyline "$program why $scratch/overridden.trace field:6" '6:Account.balance@27'
offer _whyline "$program why $scratch/none.trace p" ''
offer _whyline "$program certify $scratch/discount.trace p" 'p0 p1 p2'
: >"$scratch/discount.cert"
offer _whyline "whyline check $scratch/discount.trace $scratch/dis" "$scratch/discount.cert"
offer _whyline 'whyline gen ' ''
offer _whylens 'whylens ' '--help --version diff events expect explain report show slice'
offer _whylens './whylens s' 'show slice'
offer _whylens 'whylens explain examples/ref' 'examples/refused.java'
offer _whylens "whylens slice $scratch/over" "$scratch/overridden.trace"
offer _whylens "whylens diff $scratch/discount.trace $scratch/over" "$scratch/overridden.trace"
offer _whylens "whylens report $scratch/over" "$scratch/overridden.trace"
offer _whylens "whylens expect $scratch/discount.trace examples/overr" 'examples/overridden.expected examples/overridden.java examples/overridden.out'
offer _whylens "whylens show $scratch/discount.trace -" '--all --data --stop'
offer _whylens "whylens show $scratch/discount.trace p0 --d" '--data'
finish completion
