# Two runs on one file: the second begins with what the first left, and makes no new database.
"$1" batch --db routes.db <<'LINES'
route add 10/8 via 192.0.2.1
route add 10.1/16 dev eth1 table 100
rule add priority 10 from 192.0.2.0/24 table 100
LINES
"$1" batch --db routes.db <<'LINES'
route show table all
rule show
route get 10.1.2.3 from 192.0.2.9
route replace 10/8 via 192.0.2.2
route add 10.1/16 dev eth1 table 100
LINES
echo "status $?"
echo 'route get 10.9.9.9' | "$1" batch --db routes.db
