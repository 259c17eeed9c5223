# Why a commit failed is told once, also where standard error is no terminal. No file may grow beyond 4 KB here, and so the
# log takes no commit.
trap '' XFSZ
"$1" batch --db routes.db </dev/null
printf 'route add 10/8 dev eth0\nroute add 11/8 dev eth0\nroute get 10.0.0.1\n' >lines
(ulimit -f 4; "$1" batch --force --db routes.db lines)
echo "status $?"
