# Completion of foresight_waits in fish. Made by extras/completion/make.py.

# Whether the words before the cursor, but the first one, are one of these texts.
function __foresight_waits_behind
    set -l text (commandline -pc | string replace -ra '\d*[<>]+&?\s*[^\s<>]+(?=\s)' '')
    set -l words (string match -ra '\S+' -- $text)
    string match -qr '\s$' -- $text; or set -e words[-1]
    contains -- "$words[2..]" $argv
end

complete -c foresight_waits -f
complete -c foresight_waits -n '__foresight_waits_behind "" "--trace" "--json" "--trace --json"' -F
complete -c foresight_waits -n '__foresight_waits_behind ""' -a '--trace' -d 'count the delays of a trace'
complete -c foresight_waits -n '__foresight_waits_behind ""' -a '--json' -d 'write JSON'
complete -c foresight_waits -n '__foresight_waits_behind ""' -a '--version' -d 'print the version'
complete -c foresight_waits -n '__foresight_waits_behind "--trace"' -a '--json' -d 'write JSON'
