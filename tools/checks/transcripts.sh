#!/usr/bin/env bash
# Runs each command that README.md, docs/tour.md and docs/bugs.md show, in their order, in a folder that has the examples, and compares
# what it writes with the lines below it. A line that begins with "$ ./whyline " is a command; what it writes ends where the
# next line begins with "$ " or the block ends, and goes into FILE where the line ends with " > FILE". A line that begins with
# "$ sed " is run as it stands. Below explore stands a session as a terminal shows it, and terminal.py plays it.
# WHYLINE names another program than that of tools/program.
set -u
source "$(dirname "$0")/counting.bash"
program=$(readlink -f "${WHYLINE:-$(tools/program)}")
home=$PWD

check() { # NAME WORDS: compares with the file `wanted`
  local words same=1
  case $2 in
    *' > '*)
      read -r -a words <<<"${2% > *}"
      "$program" "${words[@]}" >"${2##* > }" 2>/dev/null || same=0
      report "$1: $2" "$same"
      return
      ;;
  esac
  read -r -a words <<<"$2"
  if [ "${words[0]}" = explore ]; then
    python3 "$home/tools/checks/terminal.py" "$program" "${words[@]}" <"$scratch/wanted" || same=0
  else
    "$program" "${words[@]}" >"$scratch/out" 2>/dev/null
    cmp -s "$scratch/wanted" "$scratch/out" || same=0
  fi
  report "$1: $2" "$same"
}

follow() { # PAGE
  local line words=''
  mkdir -p "$scratch/${1//\//_}"
  cd "$scratch/${1//\//_}" || exit 1
  cp -r "$home/examples" .
  while IFS= read -r line || [ -n "$line" ]; do
    case $line in
      '$ '* | '```'*)
        [ -n "$words" ] && check "$1" "$words"
        words=''
        : >"$scratch/wanted"
        case $line in
          '$ ./whyline '*) words=${line#'$ ./whyline '} ;;
          '$ sed '*) eval "${line#'$ '}" ;;
        esac
        ;;
      *) printf '%s\n' "$line" >>"$scratch/wanted" ;;
    esac
  done <"$home/$1"
}

follow README.md
follow docs/tour.md
follow docs/bugs.md
finish transcripts
