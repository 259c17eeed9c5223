# Puts a listing of rules back into a new database, line by line, and lists that one.
set -u
program=$1

listed() {
  "$program" batch | grep '^[0-9]*:'
}

{
  echo 'rule flush'
  echo 'rule del priority 0'
  listed <<'LINES' | sed -E 's/^([0-9]+):\t(.*)/rule add \2 priority \1/'
rule add table main suppress_prefixlength 0
rule add not from 192.0.2.0/24 fwmark 0x10/0xf0 iif wg0 table 51820 suppress_prefixlength 0x20
rule add priority 7 to 10/8 unreachable
rule show
LINES
  echo 'rule show'
} | listed
