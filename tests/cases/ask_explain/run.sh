# Why packets go where they go, on worked rows of selection: two uplinks, suppressed and throw routes, rules that themselves
# decide. The last line is the answer of `get`, byte for byte.
prt=$1
top=$(dirname "$0")/../../..
explain() {
  "$prt" explain --db "$1" "${@:2}" >said
  cat said
  cmp <(tail -n 1 said) <("$prt" get --db "$1" "${@:2}")
}
"$prt" batch --db uplinks.db "$top/examples/two-uplinks.batch" >/dev/null
explain uplinks.db 203.0.113.9
explain uplinks.db 203.0.113.9 from 198.51.100.10
"$prt" batch --db wg.db "$top/examples/wg-quick.batch" >/dev/null
explain wg.db 198.51.100.7
explain wg.db 198.51.100.7 mark 51820
"$prt" batch --db rules.db <<'LINES' >/dev/null
route add 10/8 dev eth0 table 7
route add throw 10.1/16 table 7
route add default dev eth1
rule add priority 10 iif eth9 prohibit
rule add priority 20 from 192.0.2.0/24 to 10/8 fwmark 1 table 7
rule add priority 30 not to 10/8 table 8
rule add priority 40 table 7
LINES
explain rules.db 10.1.2.3 from 192.0.2.9 mark 1
explain rules.db 10.2.2.3 iif eth9
explain rules.db 11.2.2.3
# A mistake in a policy: the rule is asked too late.
printf 'rule add priority 50 from 192.0.2.9 table 9\nroute add default dev eth5 table 9\n' | "$prt" batch --db rules.db >/dev/null
explain rules.db 10.2.2.3 from 192.0.2.9
# The same in JSON.
"$prt" explain --db rules.db --json 10.2.2.3 iif eth9
