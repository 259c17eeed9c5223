# A file that has other tables is served, and these stay as they were.
sqlite3 notes.db "CREATE TABLE note (id INTEGER PRIMARY KEY, text TEXT); INSERT INTO note VALUES (1, 'uplink'), (7, 'spare')"
printf 'route add 10/8 via 192.0.2.1\nroute show\n' | "$1" batch --db notes.db
sqlite3 notes.db "UPDATE note SET text = 'main uplink' WHERE id = 1"
printf 'route get 10.0.0.1\nroute flush table main\n' | "$1" batch --db notes.db
sqlite3 -readonly notes.db 'SELECT * FROM note ORDER BY id; SELECT count(*) FROM route; SELECT count FROM meta'
