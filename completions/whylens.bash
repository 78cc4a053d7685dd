# Completion of the words of whylens, for bash; for zsh behind `autoload -U bashcompinit && bashcompinit`.
#
#   source completions/whylens.bash
#
# Sources are completed by *.java and traces by *.trace.

_whylens_files() { # SUFFIX BEGINNING: the files of the suffix, and folders
  compgen -f -X "!*.$1" -- "$2"
  compgen -d -S / -- "$2"
}

_whylens() {
  local begun=${COMP_WORDS[COMP_CWORD]} replies=''
  case $COMP_CWORD:${COMP_WORDS[1]} in
    1:*) replies=$(compgen -W 'explain show slice report expect diff events --help --version' -- "$begun") ;;
    2:explain) replies=$(_whylens_files java "$begun") ;;
    2:show | 2:slice | 2:report | 2:expect | 2:events | 2:diff | 3:diff) replies=$(_whylens_files trace "$begun") ;;
    3:expect) replies=$(compgen -f -- "$begun") ;;
    *:show) replies=$(compgen -W '--all --data --stop' -- "$begun") ;;
  esac
  COMPREPLY=()
  local reply
  while IFS= read -r reply; do
    [ -n "$reply" ] && COMPREPLY+=("$reply")
  done <<<"$replies"
}

complete -o filenames -F _whylens whylens ./whylens
