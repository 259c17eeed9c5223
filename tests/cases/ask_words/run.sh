# Bad words, help, lines with a fault, and tables that aren't there: none is made, and no other program's are touched.
prt=$1
ask() {
  "$prt" "$@" 2>&1
  echo "status $?"
}
ask get 10.0.0.1
ask get --db a.db --server 127.0.0.1:1 10.0.0.1
ask explain --db a.db
ask show --server localhost
ask dump --db a.db b.db
"$prt" explain --help | head -n 1
ask get --db a.db 10.0.0.1
ask dump --db a.db
: >empty.db
ask show --db empty.db
sqlite3 other.db 'CREATE TABLE note (line TEXT)'
ask dump --db other.db
sqlite3 other.db .tables
ask get --server 127.0.0.1:1 10.0.0.1
ls ./*.db
printf 'route add default dev eth0\n' | "$prt" batch --db a.db
ask get --db a.db 10.0.0
ask get --db a.db 10.0.0.1 form 10.0.0.2
ask explain --db a.db 10.0.0.1 mark x
ask show --db a.db rule table 7
ask show --db a.db routes
ask get --db a.db '#'
ask get 10.0.0.1 --db a.db
ask get --db=a.db -- 10.0.0.1
"$prt" show --db a.db >/dev/full 2>errors
echo "status $?"
cat errors
