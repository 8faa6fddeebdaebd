# Completion of foresight_where in fish. Made by extras/completion/make.py.

# Whether the words before the cursor, but the first one, are one of these texts.
function __foresight_where_behind
    set -l text (commandline -pc | string replace -ra '\d*[<>]+&?\s*[^\s<>]+(?=\s)' '')
    set -l words (string match -ra '\S+' -- $text)
    string match -qr '\s$' -- $text; or set -e words[-1]
    contains -- "$words[2..]" $argv
end

complete -c foresight_where -f
complete -c foresight_where -n '__foresight_where_behind "" "--json"' -F
complete -c foresight_where -n '__foresight_where_behind ""' -a '--json' -d 'tell of the refusal as JSON'
complete -c foresight_where -n '__foresight_where_behind ""' -a '--rules' -d 'print the table of rules'
complete -c foresight_where -n '__foresight_where_behind ""' -a '--version' -d 'print the version'
