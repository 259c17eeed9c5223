# Commands whose acknowledgements can't be written were made, all of them.
printf 'route add 10/8 dev eth0\nroute add 11/8 dev eth0\n' | "$1" batch --atomic --db routes.db >&-
echo "status $?"
echo 'route show' | "$1" batch --db routes.db
echo 'route get 10.0.0.1' | "$1" batch --db routes.db
