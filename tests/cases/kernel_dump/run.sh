# Loads a dump into the kernel of a network namespace that is made for it. Where the two list otherwise it shows that;
# then it shows what the kernel lists.
set -u
prt=$1
space=prt_$$

leave_out() {
  echo "left out: $1" >&2
  exit 77
}

# A namespace with two interfaces, which are the ends of one cable.
make_space() {
  ip netns add "$space" && ip -n "$space" link set lo up || return 1
  ip -n "$space" link add eth0 type veth peer name eth1 || return 1
  ip -n "$space" link set eth0 up && ip -n "$space" link set eth1 up
}

# What the program lists, in one form.
listed() {
  printf '%s\n' "$1" | "$prt" batch --db routes.db | grep -v '^end '
}

command -v ip >/dev/null || leave_out "there is no ip here"
trap 'ip netns del "$space" 2>/dev/null' EXIT
make_space 2>/dev/null || leave_out "no network namespace with two interfaces can be made here"
"$prt" batch --db routes.db <<'LINES' >replies
route add 192.0.2.0/24 dev eth0 proto static
route add default via 192.0.2.1 dev eth0 metric 10
route add 198.51.100.0/24 dev eth1 table 100
route add default via 198.51.100.1 dev eth1 table 100
route add 203.0.113.0/24 dev eth1 scope global
route add blackhole 10/8 metric 7
route add throw 10.1/16 table 100
rule add priority 500 not from 10/8 fwmark 0x10/0xf0 iif eth0 table 100 suppress_prefixlength 0
rule add priority 600 to 10.1/16 prohibit
rule del priority 32767
LINES
"$prt" dump --db routes.db >dump
ip -n "$space" -batch dump || echo "status $?"
ip -n "$space" rule show | sed -E 's/ +$//' >kernel
listed rule | diff - kernel
cat kernel
# The kernel's own routes stand in the table local.
ip -n "$space" -4 route show table all | sed -E 's/ +$//' | grep -v 'table local' | sort >kernel
listed 'route show table all' | sort | diff - kernel
cat kernel
