# What every packet gets: which go another way after a script, which claims hold, and what no packet needs.
prt=$1
ask() {
  "$prt" "$@" 2>&1
  echo "status $?"
}
printf '%s\n' \
  'route add default via 192.0.2.1 dev eth0' \
  'route add 10.0.0.0/8 dev eth1' \
  'route add 255.255.255.255 dev eth1' \
  'rule add priority 100 iif eth2 table 100' \
  'route add default dev wg0 table 100' >tables.batch
# One default route is one line. The connected networks keep their way.
printf 'route replace default via 192.0.2.2 dev eth0\n' >gateway.batch
ask impact tables.batch gateway.batch
# Half of a network, unless the packets came in by eth2.
printf 'route add 10.128.0.0/9 dev eth2\n' >half.batch
ask impact tables.batch half.batch
ask impact --json tables.batch half.batch
# The same way by another route: only --exact shows it.
printf 'route add 10.1.0.0/16 dev eth1\n' >same.batch
ask impact tables.batch same.batch
ask impact --exact tables.batch same.batch
# A line that is refused.
printf 'route add default dev eth9\nroute add 10.2.0.0/16 dev eth2\n' >refused.batch
ask impact tables.batch refused.batch
ask impact --force tables.batch refused.batch
# Over a database, with the script on standard input. Nothing of it changes.
"$prt" batch --db a.db tables.batch | tail -n 1
ask impact --db a.db - <half.batch
"$prt" get --db a.db 10.200.0.1
printf '%s\n' \
  '# What has to hold.' \
  'iif eth2 : dev wg0' \
  'iif eth1 mark 7 : not dev wg0' \
  'to 10/8 : dev eth1' \
  'to 10/8 iif lo not mark 1/1: dev eth1' \
  'from 192.0.2.1 : none or via 192.0.2.1' >claims
ask assert tables.batch claims
sed -n 4p claims >one
ask assert --explain tables.batch one
printf 'to 10.0.0.1/8 : dev eth0\nto 10/8 : dev\n' >bad
ask assert tables.batch bad
sed -n 2,3p claims >two
ask assert --db a.db two
# A rule behind main's default route, and a route in a table that no rule names.
printf '%s\n' 'rule add priority 40000 from 192.0.2.9 table 100' 'route add 10/8 dev eth3 metric 9' 'route add default dev eth4 table 9' |
  cat tables.batch - >more.batch
ask unused more.batch
