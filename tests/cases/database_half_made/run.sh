# Tables that are there and empty, as an opening that was cut short leaves them: the next opening makes a new database.
prt=$1
opened() {
  rm -f routes.db*
  "$prt" batch --db routes.db </dev/null
  sqlite3 routes.db "DELETE FROM rule; DELETE FROM meta; $2"
  echo "$1: $(sqlite3 routes.db "SELECT group_concat(name, ' ') FROM sqlite_schema WHERE type = 'table'")"
  printf 'rule show\nroute get 10.0.0.1\n' | "$prt" batch --db routes.db 2>&1
}
opened 'rules alone' 'DROP TABLE route; DROP TABLE meta; DROP TABLE suppress'
opened 'rules and routes' 'DROP TABLE meta; DROP TABLE suppress'
opened 'no lengths' 'DROP TABLE suppress'
opened 'all four empty' ''
