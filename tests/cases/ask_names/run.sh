# Tables by the names that iproute2 has for them, where they are asked for: in listings, explanations, dumps and JSON.
prt=$1
mkdir names
printf '%s\n' '255 local' '254 main' '253 default' '0 unspec' '# mine' '100 uplink' '0x65 hexadecimal' '100 vpn' >names/rt_tables
mkdir names/rt_tables.d
printf '102 backup\n' >names/rt_tables.d/more.conf
printf '103 other\n' >names/rt_tables.d/more
printf '%s\n' \
  'route add default dev table table 100' \
  'route add 10/8 dev lookup table 102' \
  'route add 10/8 dev eth0 table 103' \
  'rule add from 192.0.2.9 table 100' \
  'rule add iif lookup table 102' >lines
"$prt" batch --db a.db lines >/dev/null
cat >ask.sh <<'LINES'
set -e
mount --bind names /etc/iproute2
"$1" show --db a.db --names table all
"$1" show --names --db a.db rule
"$1" get --db a.db 203.0.113.9 from 192.0.2.9 --names
"$1" explain --db a.db --names 203.0.113.9 from 192.0.2.9
"$1" show --db a.db --names --json table 100
"$1" show --db a.db --names --json table all
"$1" dump --db a.db --names
"$1" show --db a.db table 100
LINES
mkdir -p /etc/iproute2 2>/dev/null
unshare -m true 2>/dev/null && [ -d /etc/iproute2 ] || { echo "left out: nothing can be mounted here" >&2; exit 77; }
unshare -m bash ask.sh "$prt"
