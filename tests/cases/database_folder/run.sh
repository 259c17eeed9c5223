# A folder is no database, and nothing is made in it or beside it.
mkdir folder
echo 'route add 10/8 dev eth0' | "$1" batch --db folder 2>&1
echo "status $?"
find . | sort
