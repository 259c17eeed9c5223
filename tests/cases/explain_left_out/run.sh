# A script that was made of a listing says what was left out of it. Under an answer standard error tells what of that could
# have decided on the packet; the answer itself is as ever.
prt=$1
"$prt" import >tables.batch 2>told <<'LISTING'
default via 192.0.2.1 dev eth0 
10.3.0.0/16 proto static 
	nexthop via 192.0.2.1 dev eth0 weight 1 
	nexthop via 198.51.100.1 dev eth1 weight 1 
10.4.0.0/16 via 10.0.0.9 dev eth1 onlink 
192.0.2.0/24 dev eth0 proto kernel scope link src 192.0.2.10 
local 192.0.2.10 dev eth0 table local proto kernel scope host src 192.0.2.10 
0:	from all lookup local
300:	from all oif eth1 lookup 7
32766:	from all lookup main
32767:	from all lookup default
LISTING
echo "import: status $?"
ask() {
  "$prt" "$@" >said 2>told
  echo "status $?"
  cat said told
}
ask explain tables.batch 10.3.1.1
ask explain tables.batch to 10.4.0.1
ask explain - 203.0.113.9 <tables.batch
# In the order of both: the answer comes first.
"$prt" explain tables.batch 203.0.113.9 2>&1 | tail -n 3
"$prt" explain --json tables.batch 203.0.113.9 2>/dev/null | cmp - <(grep -v '^#' tables.batch | "$prt" explain --json - 203.0.113.9)
# What can't be printed isn't, and a comment that says another thing isn't told.
printf '# left out:\t300: from all \033[1m lookup 7\n# a policy\n#left out: x\nroute add default dev eth0\n' >own.batch
ask explain own.batch 203.0.113.9
# Where there is no answer, nothing more is told.
ask explain tables.batch 203.0.113.x
