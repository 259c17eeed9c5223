# 1,000 commands are made together, and not one more. A line after them has the refusal that it has anywhere.
prt=$1
commands() {
  seq -f 'route replace 10/8 dev a0 metric %.0f' "$1"
}
run() {
  echo "$1"
  shift
  "$prt" batch --atomic "$@" >replies
  echo "status $?"
  if seq -f 'ok %.0f' 1000 | cmp -s - replies; then echo 'ok 1 to ok 1000'; else cat replies; fi
}
commands 1000 | run '1000 commands'
commands 1000 | run '1000 commands over a file' --db routes.db
commands 1001 | run '1001 commands'
commands 1001 | run '1001 commands over the file' --db routes.db
{ commands 1000; echo; echo '# x'; } | run 'then a comment'
{ commands 1000; echo 'route add x'; } | run 'then a refused line'
{ commands 1000; echo 'rule show'; } | run 'then a query'
echo 'route get 10.0.0.1' | "$prt" batch --db routes.db
