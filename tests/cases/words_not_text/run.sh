# A word that is no UTF-8 is a bad argument; nothing is run, and no database is made.
echo 'rule show' | "$1" batch --db routes.db $'\xff' 2>errors
echo "status $?"
head -n 1 errors
ls
