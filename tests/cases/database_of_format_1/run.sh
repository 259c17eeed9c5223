# A file of format 1 opens, goes on with its count, and is one of format 2 from then on.
here=$(dirname "$0")
sqlite3 routes.db <"$here/former.sql"
printf 'rule show\nroute get 192.0.2.7\n' | "$1" batch --db routes.db
sqlite3 -readonly routes.db 'SELECT format, count FROM meta; SELECT count(*) FROM suppress'
printf 'rule del fwmark 51820\nrule show\n' | "$1" batch --db routes.db
sqlite3 -readonly routes.db 'SELECT format, count FROM meta'
# Beside a table of others it is migrated too.
sqlite3 notes.db <"$here/former.sql"
sqlite3 notes.db "CREATE TABLE note (text TEXT); INSERT INTO note VALUES ('uplink')"
echo 'route get 192.0.2.7' | "$1" batch --db notes.db
sqlite3 -readonly notes.db 'SELECT format, count FROM meta; SELECT text FROM note'
