# A text of which no line is known isn't taken as a listing: nothing is printed, and a database keeps its tables.
prt=$1
run() {
  "$prt" "$@" 2>&1
  echo "status $?"
}
printf 'route add default dev eth0 scope link\n' | run batch --db a.db
printf '%s\n' '10.0.0.1 is the router' 'default passwords are bad' >garbage.txt
run import garbage.txt
run import --db a.db garbage.txt
run diff --db a.db --all garbage.txt
run diff --db a.db --all --check garbage.txt
run show --db a.db
# Routes that the kernel makes itself are known. So are rules beside routes of which none can be kept.
printf '%s\n' 'local 10.0.0.1 dev eth1 table local proto kernel scope host src 10.0.0.1' | run import
printf '%s\n' \
  '0:	from all lookup local' \
  '10.3.0.0/16 proto static ' \
  '	nexthop via 10.0.0.9 dev eth1 weight 1 ' \
  '	nexthop via 10.0.0.8 dev eth1 weight 1 ' | run import
