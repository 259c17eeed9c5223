# What was left out of an imported script is reported by the analyses too, except the routes that the kernel makes itself.
prt=$1
ask() {
  "$prt" "$@" 2>&1
  echo "status $?"
}
printf '%s\n' \
  '# left out: 300: from all oif eth1 lookup 7: no such selector of rules' \
  '# left out: routes that the kernel makes itself: 3' \
  'rule flush' \
  'rule del priority 0' \
  'rule add priority 32766 from all lookup main' \
  'route add default dev eth0' >tables.batch
echo 'to 10.0.0.0/8 : dev eth0' >claims
echo 'route add 10.0.0.0/8 dev eth1' >change
ask assert tables.batch claims
ask unused tables.batch
ask impact tables.batch change
ask assert - claims <tables.batch
