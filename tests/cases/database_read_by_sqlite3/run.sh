# Another program reads the file: its tables, and the rows of each with the values that the document of the file names.
"$1" batch --db routes.db <<'LINES'
route add default via 192.0.2.1 dev eth0 proto static src 192.0.2.9 metric 100
route add 10/8 via 192.0.2.1
route add 192.0.2.0/24 dev eth0 proto kernel
route add 10.1.2.3 dev wg0 table 100 scope host
route add blackhole 10/8 metric 50
route add unreachable 172.16/12
route add prohibit 198.51.100.0/24 table local
route add throw 203.0.113.0/24 table 4294967295 metric 4294967295
rule add priority 10 not from 192.0.2.0/24 to 10/8 iif eth0 fwmark 0x10/0xf0 table 100
rule add priority 11 from 10.0.0.1/8 blackhole
rule add priority 12 fwmark 0xffffffff unreachable
rule add priority 4294967295 prohibit
route del 10/8 metric 50
LINES
sqlite3 -readonly routes.db <<'SQL'
SELECT type, name, tbl_name, sql FROM sqlite_schema ORDER BY rowid;
SELECT name, strict FROM pragma_table_list WHERE schema = 'main' AND name NOT LIKE 'sqlite%' ORDER BY name;
.mode quote
SELECT * FROM rule ORDER BY rowid;
SELECT * FROM route ORDER BY rowid;
SELECT * FROM meta;
.mode list
SELECT printf('%d.%d.%d.%d/%d', net >> 24, net >> 16 & 255, net >> 8 & 255, net & 255, len) FROM route WHERE tbl = 254 ORDER BY net, len;
PRAGMA integrity_check;
SQL
