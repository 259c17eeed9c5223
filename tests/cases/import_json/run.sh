# The JSON of `ip -j` is imported as the lines that `ip` prints are: the same script, and the same is told.
prt=$1
import() {
  "$prt" import "$@" 2>&1
  echo "status $?"
}
printf '%s' '[{"dst":"default","gateway":"192.0.2.1","dev":"eth0","protocol":"dhcp","prefsrc":"192.0.2.5","metric":100,"flags":[]},' \
  '{"type":"blackhole","dst":"10.5.0.0/16","protocol":"static","metric":4,"flags":[]},' \
  '{"dst":"10.1.0.0/16","gateway":"10.0.0.9","dev":"eth1","flags":["onlink"]},' \
  '{"dst":"10.3.0.0/16","protocol":"static","flags":[],"nexthops":[{"gateway":"10.0.0.9","dev":"eth1","weight":1,"flags":[]},{"gateway":"10.0.0.8","dev":"eth1","weight":1,"flags":[]}]},' \
  '{"dst":"default","via":{"family":"inet6","host":"fe80::1"},"dev":"eth1","metric":9,"flags":[]}]' \
  '[{"priority":0,"src":"all","table":"local"},' \
  '{"priority":100,"not":null,"src":"192.0.2.0","srclen":24,"dst":"10.0.0.1","fwmark":"0x7","fwmask":"0xff","iif":"eth0","table":"100","suppress_prefixlen":0},' \
  '{"priority":200,"src":"all","ipproto":"tcp","table":"7"},' \
  '{"priority":300,"src":"all","action":"prohibit"}]' >listing
import listing
printf '{"dst":"10.0.0.0/8","dev":"eth0","scope":"link"' | import
printf '[{"dst":"10.0.0.0/8","dev":"eth0 table 7","scope":"link"}]' | import
printf '[]\n' | import
command -v ip >/dev/null || { echo "left out: there is no ip here" >&2; exit 77; }
space=prt_import_$$
trap 'ip netns del "$space" 2>/dev/null' EXIT
ip netns add "$space" 2>/dev/null || { echo "left out: no network namespace can be made here" >&2; exit 77; }
ip -n "$space" -batch - <<'LINES'
link add d0 type veth peer name d1
link set d1 up
address add 192.0.2.2/24 dev d0
link set d0 up
link set lo up
route add 198.51.100.0/24 dev d0 proto static
route add default via 192.0.2.1 dev d0 metric 10 onlink
route add 203.0.113.0/24 via 192.0.2.9 table 100 proto static mtu 1400
route add blackhole 10.0.0.0/8 metric 7
route add throw 10.1.0.0/16 table 100
route add 10.2.0.0/16 nexthop via 192.0.2.3 nexthop via 192.0.2.4
rule add priority 500 not from 10.0.0.0/8 fwmark 0x10/0xf0 iif d0 table 100 suppress_prefixlength 0
rule add priority 600 to 10.1.0.0/16 prohibit
rule add priority 700 from 192.0.2.7 table 100
rule add priority 800 oif d0 table 100
LINES
for words in "-4" "-4 -d"; do
  { ip -n "$space" $words route show table all; ip -n "$space" $words rule; } | "$prt" import >lines 2>lines.left
  { ip -n "$space" -j $words route show table all; ip -n "$space" -j $words rule; } | "$prt" import >json 2>json.left
  { ip -n "$space" -j -p $words route show table all; ip -n "$space" -j -p $words rule; } | "$prt" import 2>/dev/null | cmp - json
  cmp lines json
  wc -l <lines
  cmp <(tr '\t' ' ' <lines.left) json.left && sed 's|line [0-9]*|line N|' json.left
done
