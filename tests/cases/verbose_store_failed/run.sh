# A message names the call of the store that failed. No file may grow beyond 4 KB here, and so the log takes no commit.
trap '' XFSZ
"$1" batch --db routes.db </dev/null
echo 'route add 10/8 dev eth0' | (ulimit -f 4; "$1" batch --verbose --db routes.db)
echo "status $?"
echo 'route get 10.0.0.1' | "$1" batch --db routes.db
