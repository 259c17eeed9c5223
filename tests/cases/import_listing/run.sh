# What `ip` prints, as a script; what can't be kept is told line by line, and never made another route.
prt=$1
import() {
  "$prt" import "$@" 2>&1
  echo "status $?"
}
printf '%s\n' \
  '0:	from all lookup local' \
  '100:	from 192.0.2.10 fwmark 0x7/0xff iif eth0 lookup 100' \
  '200:	not from all to 10.0.0.0/8 lookup main suppress_prefixlength 0' \
  '300:	from all oif eth1 lookup 7' \
  '301:	from all ipproto tcp dport 22 lookup 7' \
  '302:	from all goto 400' \
  '32766:	from all lookup main' \
  'default via 192.0.2.1 dev eth0 proto dhcp src 192.0.2.5 metric 100 ' \
  '10.0.0.0/8 dev eth1 proto kernel scope link src 10.0.0.1 ' \
  '10.1.0.0/16 via 10.0.0.9 dev eth1 onlink' \
  '10.2.0.0/16 nhid 5 via 10.0.0.9 dev eth1' \
  '10.3.0.0/16 proto static ' \
  '	nexthop via 10.0.0.9 dev eth1 weight 1 ' \
  '	nexthop via 10.0.0.8 dev eth1 weight 1 ' \
  '10.4.0.0/16 dev eth1 scope link mtu 1400 linkdown ' \
  'blackhole 10.5.0.0/16 proto static metric 4 ' \
  'local 10.0.0.1 dev eth1 table local proto kernel scope host src 10.0.0.1 ' \
  'broadcast 10.255.255.255 dev eth1 table local proto kernel scope link src 10.0.0.1 ' \
  'multicast 224.0.0.0/4 dev eth1 scope link ' \
  'default via inet6 fe80::1 dev eth1 metric 9 ' \
  '10.6.0.0/16 dev eth1 table nowhere scope link ' >listing
import listing
"$prt" import <listing 2>/dev/null | "$prt" batch | tail -n 1
printf '' | import
import missing
printf '[{"dst":"default"}]' | import
import listing listing
