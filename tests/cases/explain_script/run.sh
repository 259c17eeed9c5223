# Why a packet goes where it goes by a script, which no database keeps. Lines that are refused are told, and left out.
prt=$1
ask() {
  "$prt" "$@" 2>&1
  echo "status $?"
}
printf '%s\n' \
  '# a policy' \
  'route add default via 192.0.2.1 dev eth0' \
  'route add default dev wg0 table 100' \
  'route add default dev wg1 table 100' \
  'route get 10.0.0.1' \
  'rule add from 192.0.2.9 table 100' \
  'rule ad from 192.0.2.8' >policy.batch
ask explain policy.batch to 203.0.113.9 from 192.0.2.9
sed '4d;$d' policy.batch >right.batch
ask explain right.batch 203.0.113.9
ask explain - to 203.0.113.9 <right.batch
ask explain to 203.0.113.9
ask explain right.batch
ask explain
ask explain missing.batch 203.0.113.9
ask explain right.batch 203.0.113.x
"$prt" batch --db a.db right.batch | tail -n 1
cmp <("$prt" explain --db a.db 203.0.113.9) <("$prt" explain right.batch to 203.0.113.9)
"$prt" explain --json right.batch to 203.0.113.9 from 192.0.2.9
