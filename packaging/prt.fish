# Completion of prt for fish.

# Succeeds if the subcommand is one of these.
function __prt_runs
    set -l words (commandline -opc)
    set -q words[2]; and contains -- $words[2] $argv
end

# Succeeds if the word before is one of these.
function __prt_follows
    set -l words (commandline -opc)
    contains -- $words[-1] $argv
end

# Succeeds if a line of this subcommand goes on, and not with the value of an item.
function __prt_takes_items
    __prt_runs $argv; and not __prt_follows dev iif table lookup type proto protocol scope from to mark root match exact
end

# Succeeds if so many words come before the current one.
function __prt_is_after
    test (count (commandline -opc)) -eq $argv[1]
end

function __prt_tables
    printf '%s\n' local main default
    test -r /etc/iproute2/rt_tables; and string match -r '^[1-9][0-9]*' </etc/iproute2/rt_tables
end

set -l commands '__prt_is_after 1; or __prt_runs help'
set -l lines '__prt_runs explain get show; and __prt_follows'
set -l protocols 'kernel boot static ra zebra bird dhcp bgp isis ospf rip'

complete -c prt -f

complete -c prt -n $commands -a apply -d 'Make tables what a script makes'
complete -c prt -n $commands -a assert -d 'Check claims of where packets go'
complete -c prt -n $commands -a batch -d 'Run a script over a database'
complete -c prt -n $commands -a check -d 'Check the lines of a script'
complete -c prt -n $commands -a diff -d 'Print what brings the kernel to a database'
complete -c prt -n $commands -a dump -d 'Print commands that recreate a database'
complete -c prt -n $commands -a explain -d 'Explain why a packet gets its route'
complete -c prt -n $commands -a follow -d 'Print what brings the kernel to a server'
complete -c prt -n $commands -a get -d 'Show which route a packet gets'
complete -c prt -n $commands -a impact -d 'Show which packets commands send another way'
complete -c prt -n $commands -a import -d 'Make a script of what ip prints'
complete -c prt -n $commands -a replay -d 'Replay a list of events'
complete -c prt -n $commands -a serve -d 'Serve sessions over sockets and TCP'
complete -c prt -n $commands -a show -d 'List routes or rules'
complete -c prt -n $commands -a status -d 'Show how a server does'
complete -c prt -n $commands -a unused -d 'List rules and routes that no packet uses'
complete -c prt -n $commands -a wait -d 'Wait until a server answers'
complete -c prt -n $commands -a help -d 'Print help'
complete -c prt -n '__prt_is_after 1' -l version -d 'Print the version'
complete -c prt -l help -d 'Print help'

# The files that are no value of an option.
complete -c prt -n '__prt_runs apply assert batch check diff follow impact import replay unused' -F
complete -c prt -n '__prt_runs explain; and __prt_is_after 2' -F

complete -c prt -n '__prt_runs apply assert batch diff dump explain get impact import serve show unused' -l db -r -F -d 'The database file'
complete -c prt -n '__prt_runs apply assert batch diff dump explain follow get impact show status unused wait' -l server -x -a /run/prt -d 'A server'
complete -c prt -n '__prt_runs dump explain get impact show status' -l json -d 'Answer in JSON'
complete -c prt -n '__prt_runs dump explain get show' -l names -d 'Print tables by their names'
complete -c prt -n '__prt_runs diff follow' -l all -d 'Compare and change all rules and routes'
complete -c prt -n '__prt_runs diff follow' -l table -x -a '(__prt_tables)' -d 'The routes of a table'
complete -c prt -n '__prt_runs diff follow' -l proto -x -a "$protocols" -d 'The routes of a protocol'
complete -c prt -n '__prt_runs diff follow' -l priority -x -d 'The rules of a priority'

complete -c prt -n '__prt_runs apply serve' -l atomic -x -a 127.0.0.1:7802 -d 'Where atomic scripts are taken'
complete -c prt -n '__prt_runs apply' -l dry-run -d 'Print the changes only'
complete -c prt -n '__prt_runs assert' -l explain -d 'Explain each claim that fails'
complete -c prt -n '__prt_runs batch impact' -l force -d 'Go on after a refused line'
complete -c prt -n '__prt_runs batch' -l atomic -d 'Make all changes or none'
complete -c prt -n '__prt_runs batch' -l verbose -d 'Report each refused line'
complete -c prt -n '__prt_runs diff' -l check -d 'Print nothing'
complete -c prt -n '__prt_runs apply diff' -l impact -d 'Show which packets go another way'
complete -c prt -n '__prt_runs dump' -l replace -d 'Replace what is there'
complete -c prt -n '__prt_runs follow' -l once -d 'End after the first difference'
complete -c prt -n '__prt_runs impact' -l exact -d 'Compare rules and routes too'
complete -c prt -n '__prt_runs serve' -l listen -x -a 127.0.0.1:7800 -d 'Where to listen'
complete -c prt -n '__prt_runs serve' -l feed -x -a 127.0.0.1:7801 -d 'Where the feed is'
complete -c prt -n '__prt_runs serve' -l sockets -x -a '(__fish_complete_directories)' -d 'Where the Unix sockets are'
complete -c prt -n '__prt_runs serve' -l workers -x -d 'How many sessions at once'
complete -c prt -n '__prt_runs serve' -l sessions -x -d 'End after so many connections'
complete -c prt -n '__prt_runs serve' -l idle -x -d 'End a silent session'
complete -c prt -n '__prt_runs serve' -l log -d 'Report each accepted command'
complete -c prt -n '__prt_runs status' -l metrics -d 'Answer for Prometheus'
complete -c prt -n '__prt_runs wait' -l seconds -x -d 'How long to wait'

# The items of a line, and what may follow them.
complete -c prt -n '__prt_takes_items explain get' -a 'to from iif mark'
complete -c prt -n '__prt_takes_items show' -a 'route rule root match exact table type proto scope dev'
complete -c prt -n "$lines dev iif" -a '(command ls /sys/class/net 2>/dev/null)'
complete -c prt -n "$lines table lookup" -a 'all (__prt_tables)'
complete -c prt -n "$lines type" -a 'unicast blackhole unreachable prohibit throw'
complete -c prt -n "$lines proto protocol" -a "$protocols"
complete -c prt -n "$lines scope" -a 'global site link host nowhere'
