# A script that can't be opened leaves no new database behind, and an old one as it was.
"$1" batch --db routes.db no-such-file 2>&1
echo "status $?"
ls
echo 'route add 10/8 dev eth0' | "$1" batch --db routes.db
cp routes.db before.db
"$1" batch no-such-file --db routes.db 2>&1
echo "status $?"
cmp routes.db before.db && echo 'route get 10.0.0.1' | "$1" batch --db routes.db
