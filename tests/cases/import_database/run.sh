# The tables of a database become what a listing makes, which isn't printed then: what the listing doesn't have goes.
prt=$1
import() {
  "$prt" import "$@" 2>&1
  echo "status $?"
}
printf '%s\n' \
  '0:	from all lookup local' \
  '100:	from 192.0.2.10 lookup 100' \
  '32766:	from all lookup main' \
  'default via 192.0.2.1 dev eth0' \
  'default dev eth1 table 100 scope link' \
  'local 10.0.0.1 dev eth1 table local proto kernel scope host src 10.0.0.1' >listing
import --db a.db listing
"$prt" diff --all --check --db a.db listing
echo "status $?"
"$prt" import listing | "$prt" batch --db b.db >/dev/null
cmp <("$prt" dump --db a.db) <("$prt" dump --db b.db)
sed 's/eth0/eth2/' listing >changed
import --db=a.db - <changed
"$prt" show --db a.db
grep -v 'table 100 ' listing | import --db a.db
import --db a.db listing
import --db a.db listing
import --db a.db missing
import --db /missing/a.db listing
import --db a.db --server 127.0.0.1:1
printf '300:	from all goto 400\ndefault dev eth0 scope link\n' | import --db c.db
"$prt" show --db c.db rule
