# A database whose count of commands is at its limit accepts no further one, and answers.
"$1" batch --db routes.db </dev/null
sqlite3 routes.db 'UPDATE meta SET count = 999999999999999'
printf 'route add 10/8 dev eth0\nroute add 11/8 dev eth0\nroute get 10.0.0.1\n' | "$1" batch --force --db routes.db
echo "status $?"
