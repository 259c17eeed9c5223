# The tables of a database become what a script makes of a new one: in a new file, over other tables, and once more. What is only
# printed changes nothing and makes no file. If a line is refused nothing is changed.
prt=$1
examples=$(dirname "$0")/../../../examples
apply() {
  "$prt" apply "$@" 2>&1
  echo "status $?"
}
number() {
  echo "number $("$prt" get --db a.db 203.0.113.1 | cut -d ' ' -f 2)"
}
printf '%s\n' \
  '# a policy' \
  'route add default via 192.0.2.1 dev eth0' \
  'route add 10/8 dev eth1 table 7' \
  'rule add priority 50 from 192.0.2.10 table 7' >first
printf '%s\n' \
  'route add default via 192.0.2.9 dev eth0' \
  'route add 11/8 dev eth1 table 8' \
  'rule add priority 50 from 192.0.2.11 table 8' \
  'rule add priority 50 from 192.0.2.12 table 8' \
  'rule del priority 32767' >second

apply --db a.db --dry-run first
ls
apply --db a.db first
number
apply --db a.db first
number
"$prt" dump --db a.db >before
apply --db a.db --dry-run second
"$prt" dump --db a.db | cmp - before
number
apply second --db=a.db
number
"$prt" dump --db a.db | cmp - <("$prt" batch --db b.db second >/dev/null; "$prt" dump --db b.db)
apply --db a.db - <second
apply --db a.db <second
number

# Which packets go another way is shown first.
{ cat second; echo 'route add 203.0.113.0/24 dev wg0'; } >third
apply --db a.db --impact --dry-run third
apply --impact --db a.db third
apply --impact --db a.db third
number

# A refused line, by its words or by the lines before it: no line is executed, and no file is made.
"$prt" dump --db a.db >before
printf 'route add 10/8 dev eth0\nroute add 10/8 dev eth1\nroute ad 11/8 dev eth0\n' >refused
apply --db a.db refused
apply --db a.db --dry-run refused
apply --db c.db refused
"$prt" dump --db a.db | cmp - before
number
ls ./*.db

# What can't be read or opened.
apply --db a.db missing
apply --db missing/a.db first
"$prt" apply --db a.db first >/dev/full 2>errors
echo "status $?"
cat errors
number

# Each example over each other, and the dump of each.
for old in "$examples"/*.batch; do
  for new in "$examples"/*.batch; do
    rm -f ./*.db
    "$prt" apply --db a.db "$old" >/dev/null && "$prt" apply --db a.db "$new" >/dev/null || echo "$old $new: status $?"
    "$prt" batch --db b.db "$new" >/dev/null
    "$prt" dump --db b.db >dump
    "$prt" dump --db a.db | cmp - dump
    "$prt" apply --db a.db dump
  done
done

# More changes than an atomic script has are one transaction too: a file that may not grow holds none of them.
rm -f ./*.db
seq -f 'route add 10.0.0.0/8 dev eth0 metric %.0f' 3000 >many
"$prt" apply --db a.db first >/dev/null
(trap '' XFSZ; ulimit -f 40; exec "$prt" apply --db a.db many >/dev/null 2>&1)
echo "status $?"
number
apply --db a.db many | tail -n 2
number
