# Bad words, help, databases that can't be opened or aren't there, a full output, and a new database.
prt=$1
"$prt" dump 2>/dev/null
echo "status $?"
"$prt" dump --db a.db b.db 2>/dev/null
echo "status $?"
"$prt" dump --help | head -n 1
"$prt" dump --db missing/a.db 2>&1
echo "status $?"
"$prt" dump --db a.db 2>&1
echo "status $?"
"$prt" batch --db a.db </dev/null
"$prt" dump --db a.db >/dev/full 2>errors
echo "status $?"
cat errors
"$prt" dump --db=a.db
