# Completion in bash. Made by extras/completion/make.py.

# What is offered behind the words of a command line, of which redirections aren't a part.
_foresight_choices() {
  case $#,${1-} in
    0,) echo "check show serve dump work ranges trace audit clients" ;;
    1,serve | 1,dump | 1,trace | 1,clients) echo "--callers --shards" ;;
    3,serve | 3,dump | 3,trace | 3,clients) if [ "$2" = --callers ]; then echo "--shards"; fi ;;
    2,serve | 2,dump | 2,trace | 2,clients | 4,serve | 4,dump | 4,trace | 4,clients)
      case ${!#} in
        --callers) echo "1 2 4 8 16 32" ;;
        --shards) echo "1 2 4 8" ;;
      esac ;;
  esac
}

# Puts the words before the current one into `words`, without redirections; if the current word is
# the file of a redirection, its sign into `operator`.
_foresight_given() {
  local at word
  for ((at = 1; at < COMP_CWORD; at++)); do
    word=${COMP_WORDS[at]}
    if [[ $word =~ ^[0-9]*[\<\>\&\|]+$ && $word == *[\<\>]* ]]; then
      operator=$word
    elif [[ $word == *[\<\>]* ]]; then
      operator=''
    elif [[ $operator ]]; then
      operator=''
    elif [[ ! ($word =~ ^[0-9]+$ && ${COMP_WORDS[at + 1]} == [\<\>]*) ]]; then
      words+=("$word")
    fi
  done
}

_foresight() {
  local words=() operator=''
  COMPREPLY=()
  _foresight_given
  if [[ $operator ]]; then
    compopt -o default
  else
    mapfile -t COMPREPLY < <(
      compgen -W "$(_foresight_choices "${words[@]}")" -- "${COMP_WORDS[COMP_CWORD]}")
  fi
}

# Offers these options for a word that begins as one, and else files.
_foresight_or_file() {
  if [[ ! $operator && ${COMP_WORDS[COMP_CWORD]} == -* ]]; then
    mapfile -t COMPREPLY < <(compgen -W "$*" -- "${COMP_WORDS[COMP_CWORD]}")
  else
    compopt -o default
  fi
}

_foresight_where() {
  local words=() operator=''
  COMPREPLY=()
  _foresight_given
  case "${#words[@]} ${words[*]}" in
    '0 ') _foresight_or_file --json --rules --version ;;
    '1 --json') _foresight_or_file ;;
    *) if [[ $operator ]]; then compopt -o default; fi ;;
  esac
}

_foresight_waits() {
  local words=() operator=''
  COMPREPLY=()
  _foresight_given
  case "${#words[@]} ${words[*]}" in
    '0 ') _foresight_or_file --trace --json --version ;;
    '1 --trace') _foresight_or_file --json ;;
    '1 --json') _foresight_or_file ;;
    '2 --trace --json') _foresight_or_file ;;
    *) if [[ $operator ]]; then compopt -o default; fi ;;
  esac
}

# Without sorting numbers come by size; bash before 4.4 doesn't know this.
complete -o nosort -F _foresight foresight 2> /dev/null || complete -F _foresight foresight
complete -F _foresight_where foresight_where
complete -F _foresight_waits foresight_waits
