# A name that only another program can have put into a file: the first row with one is named, and nothing is printed.
set -u
prt=$1
dumped() {
  rm -f names.db*
  printf 'route add 10/8 dev eth0\nroute add 11/8 dev eth1\nrule add priority 7 iif eth2 table 9\n' | "$prt" batch --db names.db >/dev/null
  sqlite3 names.db "$2" || return
  "$prt" dump --db names.db >lines 2>errors
  echo "$1: status $?, $(wc -l <lines) lines"
  cat errors
}
dumped 'as it was' ''
dumped 'a comment' "UPDATE route SET dev = 'a#b' WHERE dev = 'eth1'"
dumped 'a newline' "UPDATE route SET dev = 'a' || char(10)"
dumped 'past ASCII' "UPDATE rule SET iif = 'eth' || char(233) WHERE iif = 'eth2'"
dumped 'both' "UPDATE rule SET iif = char(127) WHERE iif = 'eth2'; UPDATE route SET dev = char(1)"
