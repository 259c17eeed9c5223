#compdef prt
# Completion of prt for zsh.

_prt_interfaces() {
  local -a names=(/sys/class/net/*(N:t))
  compadd -a names
}

_prt_tables() {
  local -a names=(local main default $(grep -hoE '^[1-9][0-9]*' /etc/iproute2/rt_tables 2>/dev/null))
  compadd -a names
}

_prt_protocols() {
  compadd kernel boot static ra zebra bird dhcp bgp isis ospf rip
}

# Adds what may follow a word of a line. It fails if that is not known.
_prt_values() {
  case $1 in
    dev | iif) _prt_interfaces ;;
    table | lookup) compadd all && _prt_tables ;;
    type) compadd unicast blackhole unreachable prohibit throw ;;
    proto | protocol) _prt_protocols ;;
    scope) compadd global site link host nowhere ;;
    from | to | mark | root | match | exact) _message value ;;
    *) return 1 ;;
  esac
}

# Adds the words of a packet, or of a listing.
_prt_packet() {
  _prt_values "$words[CURRENT-1]" || compadd to from iif mark
}

_prt_listing() {
  _prt_values "$words[CURRENT-1]" || compadd route rule root match exact table type proto scope dev
}

# The first word after explain may be a script.
_prt_script_or_packet() {
  if (( CURRENT == 2 )); then
    _files
  else
    _prt_packet
  fi
}

_prt() {
  local command=$words[2]
  local -a commands=(
    'apply:make tables what a script makes'
    'assert:check claims of where packets go'
    'batch:run a script over a database'
    'check:check the lines of a script'
    'diff:print what brings the kernel to a database'
    'dump:print commands that recreate a database'
    'explain:explain why a packet gets its route'
    'follow:print what brings the kernel to a server'
    'get:show which route a packet gets'
    'impact:show which packets commands send another way'
    'import:make a script of what ip prints'
    'replay:replay a list of events'
    'serve:serve sessions over sockets and TCP'
    'show:list routes or rules'
    'status:show how a server does'
    'unused:list rules and routes that no packet uses'
    'wait:wait until a server answers'
    'help:print help'
  )
  local -a help=('--help[print help]')
  local -a database=('--db[the database file]:file:_files')
  local -a server=('--server[a server]:folder or address and port:(/run/prt)')
  local -a answer=('--json[answer in JSON]' '--names[print tables by their names]')
  local -a reach=(
    '--all[compare and change all rules and routes]'
    '*--table[the routes of a table]:table:_prt_tables'
    '*--proto[the routes of a protocol]:protocol:_prt_protocols'
    '*--priority[the rules of a priority]:priority:'
  )
  if (( CURRENT == 2 )); then
    _describe command commands
    compadd -- --help --version
    return
  fi
  shift words
  (( CURRENT-- ))
  case $command in
    apply)
      _arguments -S $help $database $server '--atomic[where atomic scripts are taken]:address and port:(127.0.0.1\:7802)' \
        '--dry-run[print the changes only]' '--impact[show which packets go another way]' '*:script:_files'
      ;;
    assert) _arguments -S $help $database $server '--explain[explain each claim that fails]' '*:file:_files' ;;
    batch)
      _arguments -S $help $database $server '(--atomic)--force[go on after a refused line]' \
        '(--force)--atomic[make all changes or none]' '--verbose[report each refused line]' '*:script:_files'
      ;;
    check | replay) _arguments -S $help '*:file:_files' ;;
    diff)
      _arguments -S $help $database $server $reach '(--impact)--check[print nothing]' \
        '(--check)--impact[show which packets go another way]' '*:listing:_files'
      ;;
    dump) _arguments -S $help $database $server $answer '--replace[replace what is there]' ;;
    explain) _arguments -S $help $database $server $answer '*:packet:_prt_script_or_packet' ;;
    follow) _arguments -S $help $server $reach '--once[end after the first difference]' '*:listing:_files' ;;
    get) _arguments -S $help $database $server $answer '*:packet:_prt_packet' ;;
    impact)
      _arguments -S $help $database $server '--json[answer in JSON]' '--exact[compare rules and routes too]' \
        '--force[go on after a refused line]' '*:file:_files'
      ;;
    import) _arguments -S $help $database '*:listing:_files' ;;
    serve)
      _arguments -S $help $database '--listen[where to listen]:address and port:(127.0.0.1\:7800)' \
        '--atomic[where atomic scripts are taken]:address and port:(127.0.0.1\:7802)' \
        '--feed[where the feed is]:address and port:(127.0.0.1\:7801)' '--sockets[where the Unix sockets are]:folder:_files -/' \
        '--workers[how many sessions at once]:number:' '--sessions[end after so many connections]:number:' \
        '--idle[end a silent session]:seconds:' '--log[report each accepted command]'
      ;;
    show) _arguments -S $help $database $server $answer '*:item:_prt_listing' ;;
    status) _arguments -S $help $server '(--metrics)--json[answer in JSON]' '(--json)--metrics[answer for Prometheus]' ;;
    unused) _arguments -S $help $database $server '*:script:_files' ;;
    wait) _arguments -S $help $server '--seconds[how long to wait]:seconds:' ;;
    help) _describe command commands ;;
  esac
}

_prt "$@"
