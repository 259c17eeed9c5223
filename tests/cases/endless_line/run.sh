# Lines that are too long, and input that doesn't end: a session ends at its limits, and the rest stays unread.
prt=$1
run() {
  echo "$1"
  "$prt" batch --force
  echo "status $?"
}
for count in 65536 65537; do
  { yes a | tr -d '\n' | head -c $count; printf '\nrule show\n'; } | run "$count bytes and a newline"
done
printf 'route get 1\n%70000s\nroute get 1\n' '' | run '70000 spaces'
yes a | tr -d '\n' | run 'a for ever'
yes '' | run 'newlines for ever'
