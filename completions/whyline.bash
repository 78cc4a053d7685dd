# Completion of the words of whyline, for bash; for zsh behind `autoload -U bashcompinit && bashcompinit`.
#
#   source completions/whyline.bash
#
# Sources are completed by *.java, traces by *.trace, certificates by *.cert, and what is asked of a trace by what `questions` lists
# of it. The program that is asked is the one that is completed, as it is written on the line.

_whyline_files() { # SUFFIX BEGINNING: the files of the suffix, and folders
  compgen -f -X "!*.$1" -- "$2"
  compgen -d -S / -- "$2"
}

_whyline_asked() { # PROGRAM TRACE KIND BEGINNING: the first words that `questions` lists, or the statements behind `whynot`
  local program=$1 trace=${2/#\~/$HOME} kind=$3
  if [ "$kind" = whynot ]; then
    compgen -W "$("$program" questions "$trace" 2>/dev/null | sed -n 's/^whynot //p')" -- "$4"
  else
    compgen -W "$("$program" questions "$trace" 2>/dev/null | sed -n '/^whynot /!s/ .*//p')" -- "$4"
  fi
}

_whyline() {
  local line=${COMP_LINE:0:COMP_POINT}
  local -a words
  read -r -a words <<<"$line"
  [ "${line%[[:space:]]}" = "$line" ] || words+=('')
  local at=$((${#words[@]} - 1))
  local begun=${words[at]} command=${words[1]} replies=''
  if [ "$at" -eq 1 ]; then
    replies=$(compgen -W 'run record output questions why affects certify check whynot scope explore audit migrate gen' -- "$begun")
  else
    case $command:${words[at - 1]} in
      run:-i | record:-i) replies=$(compgen -f -- "$begun") ;;
      record:-o | migrate:-o) replies=$(_whyline_files trace "$begun") ;;
      run:--steps | record:--steps | gen:*) ;;
      run:* | record:*)
        case $begun in
          -*) replies=$(compgen -W "-i --steps $([ "$command" = record ] && echo -o)" -- "$begun") ;;
          *) replies=$(_whyline_files java "$begun") ;;
        esac
        ;;
      migrate:*)
        case $begun in
          -*) replies=$(compgen -W '-o' -- "$begun") ;;
          *) replies=$(_whyline_files trace "$begun") ;;
        esac
        ;;
      *)
        case $command:$at in
          output:2 | questions:2 | why:2 | affects:2 | certify:2 | check:2 | whynot:2 | scope:2 | explore:2 | audit:2) replies=$(_whyline_files trace "$begun") ;;
          why:3 | affects:3 | certify:3 | whynot:3) replies=$(_whyline_asked "${words[0]/#\~/$HOME}" "${words[2]}" "$command" "$begun") ;;
          check:3) replies=$(_whyline_files cert "$begun") ;;
        esac
        ;;
    esac
  fi
  # bash takes what stands behind a colon for a word of its own
  local before=
  case $COMP_WORDBREAKS:$begun in *:*:*) before=${begun%"${begun##*:}"} ;; esac
  COMPREPLY=()
  local reply
  while IFS= read -r reply; do
    [ -n "$reply" ] && COMPREPLY+=("${reply#"$before"}")
  done <<<"$replies"
}

complete -o filenames -F _whyline whyline ./whyline
