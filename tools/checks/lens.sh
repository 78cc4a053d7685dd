#!/usr/bin/env bash
# Runs what docs/lens.md shows, and `whylens explain` on texts that are no programs, and compares what is written of each:
# - docs/lens.md: its first block is Prices.java, and behind a line "$ ./whylens " or "$ ./whyline " stands what is written;
# - the rows of the table behind the line `<!-- refusals -->` of docs/language.md: the rule that the row names, and that some
#   feature is named;
# - the rows of lens.tsv: the text, where it is put (as in docs/language.md), LINE:COLUMN, the rule, and the feature, or - where none
#   is named. The line below must be the source's, and the caret below it must stand in that column.
# WHYLENS and WHYLINE name other programs than those of tools/program.
set -u
source "$(dirname "$0")/counting.bash"
source tools/checks/refused_sources.bash
program=$(readlink -f "${WHYLENS:-$(tools/program whylens)}")
whyline=$(readlink -f "${WHYLINE:-$(tools/program)}")
file=$scratch/Main.java

explained() { # writes what is said of the file to out; fails unless the status is 4
  "$program" explain "$file" >"$scratch/out" 2>&1
  [ $? = 4 ]
}

blocks() { # writes each block of docs/lens.md to the file block.N
  awk -v to="$scratch/block." '/^```/ { inside = !inside; n += inside; next } inside { print > (to n) }' docs/lens.md
}

blocks
cp -r examples "$scratch/examples"
cp "$scratch/block.1" "$scratch/Prices.java"
compare() { # WORDS: compares what the command writes with the file `wanted`
  local words
  read -r -a words <<<"$1"
  case ${words[0]} in
    ./whylens) words[0]=$program ;;
    *) words[0]=$whyline ;;
  esac
  (cd "$scratch" && "${words[@]}") >"$scratch/out" 2>&1
  cmp -s "$scratch/wanted" "$scratch/out" && report "docs/lens.md: $1" 1 || report "docs/lens.md: $1" 0
}

for block in "$scratch"/block.*; do
  words=''
  while IFS= read -r line; do
    case $line in
      '$ ./why'*)
        [ -n "$words" ] && compare "$words"
        words=${line#'$ '}
        : >"$scratch/wanted"
        ;;
      *) printf '%s\n' "$line" >>"$scratch/wanted" ;;
    esac
  done <"$block"
  [ -n "$words" ] && compare "$words"
done

while IFS='|' read -r _ code place answer _; do
  case $code in
    '<!-- refusals -->' | '') ;;
    ' `'*)
      code=${code# \`} && code=${code%\` }
      rule=${answer# \`program: } && rule=${rule%% *}
      source_of "${place// /}" "$code" >"$file"
      same=1
      explained || same=0
      [[ $(head -n 1 "$scratch/out") == *": $rule" ]] || same=0
      grep -q '^Instead: ' "$scratch/out" || same=0
      report "docs/language.md: $code" "$same"
      ;;
  esac
done < <(sed -n '/^<!-- refusals -->$/,/^$/p' docs/language.md)

while IFS=$'\t' read -r place code at rule feature; do
  source_of "$place" "${code//\\t/$'\t'}" >"$file"
  same=1
  explained || same=0
  [ "$(sed -n 1p "$scratch/out")" = "$file:$at: $rule" ] || same=0
  [ "$(sed -n 2p "$scratch/out")" = "$(sed -n "${at%:*}p" "$file")" ] || same=0
  caret=$(sed -n 3p "$scratch/out")
  [ "${#caret}" = "${at#*:}" ] && [ "${caret//[[:blank:]]/}" = '^' ] || same=0
  case $feature in
    -) [ "$(wc -l <"$scratch/out")" = 4 ] || same=0 ;;
    *) [[ $(sed -n 5p "$scratch/out") == "$feature is no"* ]] || same=0 ;;
  esac
  report "$code" "$same"
done <tools/checks/lens.tsv
finish lens
