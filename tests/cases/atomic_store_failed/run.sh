# A failed commit is the whole output, and none of the commands is stored. No file may grow beyond 4 KB here.
trap '' XFSZ
"$1" batch --db routes.db </dev/null
printf 'route add 10/8 dev eth0\nroute add 11/8 dev eth0\n' | (ulimit -f 4; "$1" batch --atomic --verbose --db routes.db)
echo "status $?"
echo 'route get 10.0.0.1' | "$1" batch --db routes.db
