# Sourced by .ci/examples and embedding/programs.sh, at the top of the repository: which folders have
# cases, which cases a folder has, and where the words of a case are.

# The folders with cases: those for readers, and the topics of checks/.
case_folders() {
  local folder
  for folder in examples examples/tour checks/*; do
    case $folder in
      checks/edits | checks/mistakes | checks/planted) ;;
      *) if [ -d "$folder" ]; then echo "$folder"; fi ;;
    esac
  done
}

# The cases of a folder, in order: each input, and each name with words of its own that has no input.
cases_of() {
  local file
  for file in "$1"/*; do
    case ${file##*/} in
      *.handlers | *.session | *.trace | *.ranges) echo "$file" ;;
      *.*.args) ;;
      ?*.args) echo "${file%.args}" ;;
    esac
  done | sort
}

# The file with a case's words: its own, or else that of its folder, if there is one.
words_of() {
  local file
  for file in "$1.args" "${1%/*}/args"; do
    if [ -f "$file" ]; then echo "$file" && return; fi
  done
}
