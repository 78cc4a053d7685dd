#!/usr/bin/env bash
# Runs the program with the words of each row of words.tsv, and compares what it writes and its status with the row.
# WHYLINE names another program than that of tools/program.
set -u
source "$(dirname "$0")/counting.bash"
program=$(readlink -f "${WHYLINE:-$(tools/program)}")
rows=$PWD/tools/checks/words.tsv
usage='usage: whyline COMMAND WORDS'

cp examples/first.java "$scratch/S" && cd "$scratch" || exit 1
printf 'xyz' >I
"$program" record S -o T >/dev/null 2>&1

while IFS=$'\t' read -r status line words || [ -n "$status" ]; do
  case $status in '#'* | '') continue ;; esac
  same=1
  [ "$line" = usage ] && line=$usage
  read -r -a each <<<"$words"
  "$program" "${each[@]}" </dev/null >out 2>err
  [ $? = "$status" ] || same=0
  printf '%b\n' "$line" | cmp -s - out || same=0
  report "$words" "$same"
done <"$rows"

finish words
