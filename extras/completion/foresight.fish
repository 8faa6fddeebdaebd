# Completion of foresight in fish. Made by extras/completion/make.py.

# The words before the cursor but the first one, without redirections.
function __foresight_given
    set -l text (commandline -pc | string replace -ra '\d*[<>]+&?\s*[^\s<>]+(?=\s)' '')
    set -l words (string match -ra '\S+' -- $text)
    string match -qr '\s$' -- $text; or set -e words[-1]
    string join \n -- $words[2..]
end

# Whether behind these words: so many, the command first among those that are named.
function __foresight_behind
    set -l given (__foresight_given)
    test (count $given) -eq $argv[1]; or return 1
    test (count $argv) -eq 1; or contains -- $given[1] $argv[2..]
end

# Whether the last word is this one, behind one of the commands that are named.
function __foresight_number
    set -l given (__foresight_given)
    contains -- (count $given) 2 4; and test "$given[-1]" = $argv[1]
    and contains -- $given[1] $argv[2..]
end

complete -c foresight -f
complete -c foresight -n '__foresight_behind 0' -a check -d 'write handlers in canonical form'
complete -c foresight -n '__foresight_behind 0' -a show -d 'write handlers with what each may still call'
complete -c foresight -n '__foresight_behind 0' -a serve -d 'serve a session and write the replies'
complete -c foresight -n '__foresight_behind 0' -a dump -d 'serve a session and write the final tables'
complete -c foresight -n '__foresight_behind 0' -a work -d 'serve a generated workload'
complete -c foresight -n '__foresight_behind 0' -a ranges -d 'drive one map by hand'
complete -c foresight -n '__foresight_behind 0' -a trace -d 'serve a session and write the events of the run'
complete -c foresight -n '__foresight_behind 0' -a audit -d 'judge the trace at the end of a session'
complete -c foresight -n '__foresight_behind 0' -a clients -d 'serve the requests of several clients'
complete -c foresight -n '__foresight_behind 1 serve dump trace clients' -a --callers -d 'how many worker threads, 1 to 32'
complete -c foresight -n '__foresight_behind 1 serve dump trace clients' -a --shards -d 'how many parts a table has, 1 to 8'
complete -c foresight -n '__foresight_behind 3 serve dump trace clients; and test (__foresight_given)[2] = --callers' -a --shards -d 'how many parts a table has, 1 to 8'
complete -c foresight -n '__foresight_number --callers serve dump trace clients' -a '1 2 4 8 16 32'
complete -c foresight -n '__foresight_number --shards serve dump trace clients' -a '1 2 4 8'
