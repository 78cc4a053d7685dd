#!/usr/bin/env bash
# Runs what docs/language.md says isn't read: each row of the table behind the line `<!-- refusals -->` in the program that is
# shown above it, at the place that the row names, and compares the answer, without its token, with the row's.
# WHYLINE names another program than that of tools/program.
set -u
source "$(dirname "$0")/counting.bash"
source tools/checks/refused_sources.bash
program=$(readlink -f "${WHYLINE:-$(tools/program)}")

in_table=0
while IFS='|' read -r _ code place answer _; do
  case $code in
    '<!-- refusals -->' | '') ;;
    ' `'*)
      code=${code# \`} && code=${code%\` }
      answer=${answer# \`} && answer=${answer%\` }
      source_of "${place// /}" "$code" >"$scratch/Main.java"
      same=1
      "$program" run "$scratch/Main.java" >"$scratch/out" 2>&1
      [ $? = 4 ] || same=0
      written=$(cat "$scratch/out")
      [ "${written% token *}" = "$answer" ] || same=0
      report "docs/language.md: $code" "$same"
      ;;
  esac
done < <(sed -n '/^<!-- refusals -->$/,/^$/p' docs/language.md)
finish refusals
