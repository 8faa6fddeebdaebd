#!/usr/bin/env python3
"""Makes the completion for bash, zsh and fish: extras/completion/make.py [FOLDER].

The files are written into the folder of this script, or into FOLDER. Commands, options and bounds
are read from the definitions of the command line: the usage line and the bounds of
crates/serve_words/specs/Commands.antt, and the limits that it cites. SAYS has a sentence for each
command, and what a number is. Of the programs that read a file by its name (OTHERS) the usage line
in their code says which options may come before the file, in this order, and which words are alone.
"""
import itertools
import os
import re
import sys

HERE = os.path.dirname(os.path.realpath(__file__))
ROOT = os.path.join(HERE, "..", "..")
COMMANDS = "crates/serve_words/specs/Commands.antt"
LIMITS = "crates/session_values/specs/Limits.antt"
SAYS = {
    "check": "write handlers in canonical form",
    "show": "write handlers with what each may still call",
    "serve": "serve a session and write the replies",
    "dump": "serve a session and write the final tables",
    "work": "serve a generated workload",
    "ranges": "drive one map by hand",
    "trace": "serve a session and write the events of the run",
    "audit": "judge the trace at the end of a session",
    "clients": "serve the requests of several clients",
    "--callers": "how many worker threads",
    "--shards": "how many parts a table has",
    "N": "how many requests",
    "START": "where the draws begin",
}
# The file that has the usage line of a program, and a sentence for each of its options.
OTHERS = {
    "foresight_where": ("crates/foresight_where/src/ending.rt", {
        "--json": "tell of the refusal as JSON",
        "--rules": "print the table of rules",
        "--version": "print the version",
    }),
    "foresight_waits": ("crates/foresight_waits/src/ending.rt", {
        "--trace": "count the delays of a trace",
        "--json": "write JSON",
        "--version": "print the version",
    }),
}
BASH = r"""# Completion in bash. Made by extras/completion/make.py.

# What is offered behind the words of a command line, of which redirections aren't a part.
_foresight_choices() {
  case $#,${1-} in
    0,) echo "ALL" ;;
    1,SERVING) echo "OPTIONS" ;;
    3,SERVING) if [ "$2" = FIRST ]; then echo "SECOND"; fi ;;
    2,SERVING | 4,SERVING)
      case ${!#} in
NUMBERS
      esac ;;
  esac
}

# Puts the words before the current one into `words`, without redirections; if the current word is
# the file of a redirection, its sign into `operator`.
_foresight_given() {
  local at word
  for ((at = 1; at < COMP_CWORD; at++)); do
    word=${COMP_WORDS[at]}
    if [[ $word =~ ^[0-9]*[\<\>\&\|]+$ && $word == *[\<\>]* ]]; then
      operator=$word
    elif [[ $word == *[\<\>]* ]]; then
      operator=''
    elif [[ $operator ]]; then
      operator=''
    elif [[ ! ($word =~ ^[0-9]+$ && ${COMP_WORDS[at + 1]} == [\<\>]*) ]]; then
      words+=("$word")
    fi
  done
}

_foresight() {
  local words=() operator=''
  COMPREPLY=()
  _foresight_given
  if [[ $operator ]]; then
    compopt -o default
  else
    mapfile -t COMPREPLY < <(
      compgen -W "$(_foresight_choices "${words[@]}")" -- "${COMP_WORDS[COMP_CWORD]}")
  fi
}

# Offers these options for a word that begins as one, and else files.
_foresight_or_file() {
  if [[ ! $operator && ${COMP_WORDS[COMP_CWORD]} == -* ]]; then
    mapfile -t COMPREPLY < <(compgen -W "$*" -- "${COMP_WORDS[COMP_CWORD]}")
  else
    compopt -o default
  fi
}
OTHERS

# Without sorting numbers come by size; bash before 4.4 doesn't know this.
complete -o nosort -F _foresight foresight 2> /dev/null || complete -F _foresight foresight
COMPLETE
"""
BASH_OTHER = r"""
_PROGRAM() {
  local words=() operator=''
  COMPREPLY=()
  _foresight_given
  case "${#words[@]} ${words[*]}" in
STATES
    *) if [[ $operator ]]; then compopt -o default; fi ;;
  esac
}"""
ZSH = r"""#compdef foresight PROGRAMS
# Completion in zsh. Made by extras/completion/make.py.

_foresight_options() {
  local -a offered
  case $CURRENT in
    3) offered=(ALL_OPTIONS) ;;
    5) [[ $words[3] = FIRST ]] && offered=(SECOND_OPTION) ;;
    4 | 6)
      case $words[CURRENT-1] in
NUMBERS
      esac ;;
  esac
  (( $#offered )) && _describe -V option offered
}

_foresight_words() {
  local -a commands
  commands=(
COMMANDS
  )
  if (( CURRENT == 2 )); then
    _describe command commands
    return
  fi
  case $words[2] in
    SERVING) _foresight_options ;;
    work)
      case $CURRENT in
WORK
      esac ;;
  esac
}

# Offers these options for a word that begins as one, and else files.
_foresight_or_file() {
  local -a offered=("$@")
  if [[ $words[CURRENT] != -* ]]; then
    _files
  elif (( $#offered )); then
    _describe -V option offered
  fi
}

case $service in
  foresight) _foresight_words ;;
OTHERS
esac
"""
ZSH_OTHER = """\
  PROGRAM)
    case "$CURRENT $words[2,CURRENT-1]" in
STATES
    esac ;;"""
FISH = r"""# Completion of foresight in fish. Made by extras/completion/make.py.

# The words before the cursor but the first one, without redirections.
function __foresight_given
    set -l text (commandline -pc | string replace -ra '\d*[<>]+&?\s*[^\s<>]+(?=\s)' '')
    set -l words (string match -ra '\S+' -- $text)
    string match -qr '\s$' -- $text; or set -e words[-1]
    string join \n -- $words[2..]
end

# Whether behind these words: so many, the command first among those that are named.
function __foresight_behind
    set -l given (__foresight_given)
    test (count $given) -eq $argv[1]; or return 1
    test (count $argv) -eq 1; or contains -- $given[1] $argv[2..]
end

# Whether the last word is this one, behind one of the commands that are named.
function __foresight_number
    set -l given (__foresight_given)
    contains -- (count $given) 2 4; and test "$given[-1]" = $argv[1]
    and contains -- $given[1] $argv[2..]
end

complete -c foresight -f
"""
FISH_OTHER = r"""# Completion of PROGRAM in fish. Made by extras/completion/make.py.

# Whether the words before the cursor, but the first one, are one of these texts.
function __PROGRAM_behind
    set -l text (commandline -pc | string replace -ra '\d*[<>]+&?\s*[^\s<>]+(?=\s)' '')
    set -l words (string match -ra '\S+' -- $text)
    string match -qr '\s$' -- $text; or set -e words[-1]
    contains -- "$words[2..]" $argv
end

complete -c PROGRAM -f
"""


def read(name):
    """The text of a file of the repository."""
    with open(os.path.join(ROOT, name), encoding="utf-8") as given:
        return given.read()


def definition(text, name):
    """The lines that define a name, without its signature."""
    return re.search(rf"^{name}(?: \w+)* =(.*?)\n\n", text, re.S | re.M)[1]


def commands_of(text):
    """The words behind each command, by the usage line."""
    usage = "".join(re.findall(r'codes "([^"]*)"', definition(text, "usage_line")))
    found = {}
    for line in usage.removeprefix("usage: foresight ").split(" | "):
        command, *rest = line.replace("[", "").replace("]", "").split()
        found[command] = rest
    return found


def bounds_of(text, limits):
    """The least and the greatest number of each option."""
    def size(word):
        return int(word) if word.isdigit() else int(
            re.search(rf"^{word} = (\d+)$", limits, re.M)[1])
    found = {}
    for option in ("callers", "shards"):
        bounds = definition(text, f"{option}_of")
        low, high = re.search(r"number_within (\w+) (\w+)", bounds).groups()
        found["--" + option] = size(low), size(high)
    work = re.findall(r"number_within (\w+) (\w+)", definition(text, "work_of"))
    for name, (low, high) in zip(("N", "START"), work):
        found[name] = size(low), size(high)
    return found


def doubled(bounds):
    """Numbers within bounds, each twice the one before."""
    low, high = bounds
    found = [low]
    while found[-1] * 2 <= high:
        found.append(found[-1] * 2)
    return found


def states_of(name):
    """What options may follow the words of a program, for all words that a file may follow: its
    usage line is `[OPTION] .. FILE | WORD | ..`, and the options come in this order."""
    line, *alone = re.search(rf"usage: {name} (.*?)\\n", read(OTHERS[name][0]))[1].split(" | ")
    options = re.findall(r"\[(--\w+)\]", line)
    found = {(): options + alone}
    for count in range(1, len(options) + 1):
        for given in itertools.combinations(options, count):
            found[given] = options[options.index(given[-1]) + 1:]
    return found


class Words:
    """What a command line may have."""

    def __init__(self):
        text = read(COMMANDS)
        self.commands = commands_of(text)
        self.bounds = bounds_of(text, read(LIMITS))
        self.serving = [name for name, rest in self.commands.items() if "--callers" in rest]
        self.options = self.commands[self.serving[0]][::2]
        self.states = {name: states_of(name) for name in OTHERS}
        missing = set(self.commands) - set(SAYS)
        for name, states in self.states.items():
            missing |= set(states[()]) - set(OTHERS[name][1])
        if missing:
            sys.exit(f"extras/completion/make.py: no sentence for {', '.join(sorted(missing))}")

    def said(self, name):
        """What an option or a number is, with its bounds."""
        low, high = self.bounds[name]
        return f"{SAYS[name]}, {low} to {high}"


def quoted(*parts):
    """A pattern of a case: a number and words, as one text."""
    number, *given = parts
    return f"'{number} {' '.join(given)}'"


def filled(form, pairs):
    """A text with what stands for its words."""
    for word, instead in pairs.items():
        form = re.sub(rf"\b{word}\b", lambda _, instead=instead: instead, form)
    return form


def bash(words):
    """The completion of bash."""
    numbers = [f"        {option}) echo \"{' '.join(map(str, doubled(words.bounds[option])))}\" ;;"
               for option in words.options]
    serving = " | ".join(words.serving)
    form = BASH
    for count in ("1", "2", "3", "4"):
        form = form.replace(f"{count},SERVING", " | ".join(
            f"{count},{name}" for name in words.serving))
    others = []
    for name, states in words.states.items():
        rows = [f"    {quoted(len(given), *given)}) {' '.join(['_foresight_or_file', *offered])} ;;"
                for given, offered in states.items()]
        others.append(BASH_OTHER.replace("PROGRAM", name).replace("STATES", "\n".join(rows)))
    return filled(form, {
        "ALL": " ".join(words.commands), "OPTIONS": " ".join(words.options), "SERVING": serving,
        "FIRST": words.options[0], "SECOND": words.options[1], "NUMBERS": "\n".join(numbers),
        "OTHERS": "\n".join(others),
        "COMPLETE": "\n".join(f"complete -F _{name} {name}" for name in OTHERS)})


def zsh(words):
    """The completion of zsh."""
    first, second = (f"'{option}:{words.said(option)}'" for option in words.options)
    numbers = [f"        {option}) offered=({' '.join(map(str, doubled(words.bounds[option])))}) ;;"
               for option in words.options]
    work = [f"        {at}) _message '{words.said(name)}' ;;"
            for at, name in enumerate(words.commands["work"], 3)]
    listed = [f"    '{name}:{SAYS[name]}'" for name in words.commands]
    others = []
    for name, states in words.states.items():
        rows = [" ".join([f"      {quoted(len(given) + 2, *given)}) _foresight_or_file",
                          *(f"'{option}:{OTHERS[name][1][option]}'" for option in offered), ";;"])
                for given, offered in states.items()]
        others.append(ZSH_OTHER.replace("PROGRAM", name).replace("STATES", "\n".join(rows)))
    return filled(ZSH, {
        "ALL_OPTIONS": f"{first} {second}", "FIRST": words.options[0], "SECOND_OPTION": second,
        "NUMBERS": "\n".join(numbers), "COMMANDS": "\n".join(listed), "WORK": "\n".join(work),
        "SERVING": " | ".join(words.serving), "PROGRAMS": " ".join(OTHERS),
        "OTHERS": "\n".join(others)})


def fish(words):
    """The completion of fish for foresight."""
    serving, lines = " ".join(words.serving), []
    for name in words.commands:
        lines.append(f"complete -c foresight -n '__foresight_behind 0' -a {name} -d '{SAYS[name]}'")
    first, second = words.options
    for option, behind in ((first, f"__foresight_behind 1 {serving}"),
                           (second, f"__foresight_behind 1 {serving}"),
                           (second, f"__foresight_behind 3 {serving}; "
                            f"and test (__foresight_given)[2] = {first}")):
        lines.append(f"complete -c foresight -n '{behind}' -a {option} -d '{words.said(option)}'")
    for option in words.options:
        numbers = " ".join(map(str, doubled(words.bounds[option])))
        lines.append(f"complete -c foresight -n '__foresight_number {option} {serving}' "
                     f"-a '{numbers}'")
    return FISH + "\n".join(lines) + "\n"


def fish_other(name, states):
    """The completion of fish for a program that reads a file by its name."""
    behind = " ".join(f'"{" ".join(given)}"' for given in states)
    lines = [f"complete -c {name} -n '__{name}_behind {behind}' -F"]
    for given, offered in states.items():
        lines += [f"complete -c {name} -n '__{name}_behind \"{' '.join(given)}\"' -a '{option}' "
                  f"-d '{OTHERS[name][1][option]}'" for option in offered]
    return FISH_OTHER.replace("PROGRAM", name) + "\n".join(lines) + "\n"


def made():
    """Each file that is made, with its text."""
    words = Words()
    return {
        "foresight.bash": bash(words),
        "_foresight": zsh(words),
        "foresight.fish": fish(words),
        **{f"{name}.fish": fish_other(name, states) for name, states in words.states.items()},
    }


def main():
    folder = sys.argv[1] if len(sys.argv) > 1 else HERE
    for name, text in made().items():
        with open(os.path.join(folder, name), "w", encoding="utf-8") as file:
            file.write(text)


if __name__ == "__main__":
    main()
