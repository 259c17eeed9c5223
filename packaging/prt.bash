# Completion of prt for bash.

# Offers the words that begin as what is typed.
_prt_words() {
  mapfile -t COMPREPLY < <(compgen -W "$1" -- "${COMP_WORDS[COMP_CWORD]}")
}

_prt_files() {
  compopt -o filenames
  mapfile -t COMPREPLY < <(compgen -f -- "${COMP_WORDS[COMP_CWORD]}")
}

_prt_folders() {
  compopt -o filenames
  mapfile -t COMPREPLY < <(compgen -d -- "${COMP_WORDS[COMP_CWORD]}")
}

# Offers what may follow a word of a line. It fails if that is not known.
_prt_values() {
  case $1 in
    dev | iif) _prt_words "$(ls /sys/class/net 2>/dev/null)" ;;
    table | lookup) _prt_words "local main default all $(grep -hoE '^[1-9][0-9]*' /etc/iproute2/rt_tables 2>/dev/null)" ;;
    type) _prt_words 'unicast blackhole unreachable prohibit throw' ;;
    proto | protocol) _prt_words 'kernel boot static ra zebra bird dhcp bgp isis ospf rip' ;;
    scope) _prt_words 'global site link host nowhere' ;;
    from | to | mark | root | match | exact) ;;
    *) return 1 ;;
  esac
}

_prt() {
  local word=${COMP_WORDS[COMP_CWORD]} before=${COMP_WORDS[COMP_CWORD - 1]} options=
  local verbs='apply assert batch check diff dump explain follow get impact import replay serve show status unused wait'
  COMPREPLY=()
  if [ "$COMP_CWORD" -eq 1 ]; then
    _prt_words "$verbs help --help --version"
    return
  fi
  case $before in
    --db) _prt_files && return ;;
    --listen) _prt_words 127.0.0.1:7800 && return ;;
    # After batch it has no value.
    --atomic) [ "${COMP_WORDS[1]}" = batch ] || { _prt_words 127.0.0.1:7802 && return; } ;;
    --feed) _prt_words 127.0.0.1:7801 && return ;;
    --server) _prt_words /run/prt && return ;;
    --sockets) _prt_folders && return ;;
    --workers | --sessions | --idle | --table | --proto | --priority | --seconds) return ;;
  esac
  case ${COMP_WORDS[1]} in
    explain | get | show) _prt_values "$before" && return ;;
  esac
  case ${COMP_WORDS[1]} in
    apply) options='--db --server --atomic --dry-run --impact --help' ;;
    assert) options='--db --server --explain --help' ;;
    batch) options='--force --atomic --db --server --verbose --help' ;;
    check | replay) options=--help ;;
    explain | get | show) options='--db --server --json --names --help' ;;
    dump) options='--db --server --json --names --replace --help' ;;
    diff) options='--db --server --all --table --proto --priority --check --impact --help' ;;
    follow) options='--server --all --table --proto --priority --once --help' ;;
    impact) options='--db --server --json --exact --force --help' ;;
    import) options='--db --help' ;;
    serve) options='--db --listen --atomic --feed --sockets --workers --sessions --idle --log --help' ;;
    status) options='--server --json --metrics --help' ;;
    unused) options='--db --server --help' ;;
    wait) options='--server --seconds --help' ;;
    help) options=$verbs ;;
  esac
  case ${COMP_WORDS[1]} in
    explain)
      # The first word after it may be a script, or an option; the others are those of the packet.
      [[ $COMP_CWORD -gt 2 || $word == -* ]] || { _prt_files && return; }
      options+=' to from iif mark'
      ;;
    apply | assert | batch | check | diff | follow | impact | import | replay | unused)
      [[ $word == -* ]] || { _prt_files && return; }
      ;;
    get) options+=' to from iif mark' ;;
    show) options+=' route rule root match exact table type proto scope dev' ;;
  esac
  _prt_words "$options"
}

complete -F _prt prt
