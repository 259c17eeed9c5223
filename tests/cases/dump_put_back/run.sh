# Dumps a database and runs the dump over new ones: each line is accepted, and listings and a further dump are the same.
set -u
prt=$1
"$prt" batch --db first.db <<'LINES' >/dev/null
route add default via 192.0.2.1 metric 10
route add default via 198.51.100.1 dev eth1 metric 20 proto static
route add 192.0.2.0/24 dev eth0 proto kernel src 192.0.2.10
route add 10.1.2.3 dev wg0 scope global table 7
route add throw 10/8 table 100
rule del priority 0
rule add priority 500 not from 10/8 fwmark 0x10/0xf0 iif eth0 table 100 suppress_prefixlength 0
rule add priority 500 to 10.1/16 prohibit
rule del priority 32767
LINES
"$prt" dump --db first.db >dump
echo "status $?"
cat dump
shown() {
  printf 'rule\nroute show table all\n' | "$prt" batch --db "$1"
}
shown first.db >listings
for force in "" --force; do
  rm -f second.db*
  "$prt" batch $force --db second.db dump | uniq -c -w 2
  shown second.db | cmp - listings
  "$prt" dump --db second.db | cmp - dump
done
# Lines for a kernel: databases with other rules at first accept each of them, and no rule of theirs is left.
"$prt" dump --db first.db --replace >replacing
printf 'rule\n' | "$prt" batch --db first.db >rules
for lines in '' 'rule add priority 100 table local\nrule del priority 0' 'rule flush\nrule del priority 0'; do
  rm -f third.db*
  printf "$lines\n" | "$prt" batch --db third.db >/dev/null
  "$prt" batch --db third.db replacing | uniq -c -w 2
  printf 'rule\n' | "$prt" batch --db third.db | cmp - rules
done
# What `ip -batch` can't read is left out of those lines, and named.
printf 'route add 10/8 dev a"b\nroute add 11/8 dev eth0\nrule add priority 7 iif -c table 9\n' | "$prt" batch --db fourth.db >/dev/null
"$prt" dump --db fourth.db --replace >lines 2>errors
echo "status $?, $(grep -c dev lines) route"
cat errors
