# What a script asks is answered the same, word for word, from outside it, in whatever order the words come.
prt=$1
top=$(dirname "$(dirname "$0")")/../..
"$prt" batch --db routes.db "$top/examples/two-uplinks.batch" >/dev/null
asked() {
  printf '%s\n' "$1" | "$prt" batch --db routes.db
}
same() {
  local line=$1
  shift
  asked "$line" >one
  "$prt" "$@" >other
  cmp one other && echo "same: $line"
}
same 'route get 10.1.2.3' get --db routes.db 10.1.2.3
same 'route get 10.1.2.3 from 192.0.2.10' get --db routes.db 10.1.2.3 from 192.0.2.10
same 'route get from 198.51.100.10 10.1.2.3 iif eth1 mark 7' get from 198.51.100.10 --db routes.db 10.1.2.3 iif eth1 mark 7
same 'route get 10.1.2.3 from 192.0.2.10' get --db routes.db '10.1.2.3 from 192.0.2.10'
same 'route' show --db routes.db
same 'route show' show route --db routes.db
same 'route show table all' show --db routes.db table all
same 'route show table all dev eth1' show --db routes.db route dev eth1 table all
same 'rule' show --db routes.db rule
before=$(sha256sum <routes.db)
"$prt" dump --db routes.db | "$prt" batch --db copy.db >/dev/null
"$prt" dump --db routes.db >one
"$prt" dump --db copy.db >other
cmp one other && echo 'same: dump'
[ "$before" = "$(sha256sum <routes.db)" ] && echo 'the file is as it was'
