# Rows that spell no state are refused, and stay as they are; under the refusal stands what is wrong. Each stands alone
# in a database that has accepted one command, `route add 10/8 dev eth0`. Beside it stands a row without that fault, with
# which the database opens.
prt=$1

# Opens a database in which these statements were run.
opened() {
  rm -f routes.db*
  echo 'route add 10/8 dev eth0' | "$prt" batch --db routes.db >made
  sqlite3 routes.db "$2" || return
  sqlite3 routes.db .dump >before
  echo 'route add 12/8 dev eth0' | "$prt" batch --db routes.db >replies 2>&1
  status=$?
  echo "$1: $(cat replies), status $status"
  sqlite3 routes.db .dump | cmp -s - before && echo unchanged
}

# The columns of `rule` after id.
rule='priority, inverted, src_net, src_len, dst_net, dst_len, iif, mark, mask, act, tbl'
opened 'count -1' 'UPDATE meta SET count = -1'
opened 'count 1000000000000001' 'UPDATE meta SET count = 1000000000000001'
opened 'count 1000000000000000' 'UPDATE meta SET count = 1000000000000000'
opened 'next format' 'UPDATE meta SET format = 3'
opened 'format 1 with a length' 'UPDATE meta SET format = 1; INSERT INTO suppress VALUES (2, 8)'
opened 'ids 1 and 2' 'INSERT INTO meta VALUES (2, 2, 1)'
opened 'no count beside routes' 'DELETE FROM rule; DELETE FROM meta'
opened 'no count beside one rule' 'DELETE FROM route; DELETE FROM rule WHERE id > 1; DELETE FROM meta'

opened 'rule 4' "INSERT INTO rule VALUES (4, 5, 0, 167772160, 8, 0, 0, '', -1, -1, 1, 100)"
opened 'rule 5' "INSERT INTO rule VALUES (5, 5, 0, 167772160, 8, 0, 0, '', -1, -1, 1, 100)"
opened 'table beside a blackhole' "INSERT INTO rule VALUES (4, 5, 0, 167772160, 8, 0, 0, '', -1, -1, 6, 100)"
opened 'source 10.0.0.1/8' "INSERT INTO rule VALUES (4, 5, 0, 167772161, 8, 0, 0, '', -1, -1, 1, 100)"
opened 'mask without mark' "INSERT INTO rule VALUES (4, 5, 0, 167772160, 8, 0, 0, '', -1, 4294967295, 1, 100)"
opened 'two equal rules' "INSERT INTO rule SELECT 4, $rule FROM rule WHERE id = 1"
for last in 1000 1001; do
  opened "$last rules" "UPDATE meta SET count = 998;
    WITH RECURSIVE ids (id) AS (SELECT 4 UNION ALL SELECT id + 1 FROM ids WHERE id < $last)
    INSERT INTO rule SELECT id, id, 0, 0, 0, 0, 0, '', -1, -1, 1, 100 FROM ids"
done

opened 'length 32 of a rule' 'INSERT INTO suppress VALUES (2, 32)'
opened 'length 33 of a rule' 'INSERT INTO suppress VALUES (2, 33)'
opened 'length of a blackhole' "INSERT INTO rule VALUES (4, 5, 0, 0, 0, 0, 0, '', -1, -1, 6, 0); INSERT INTO suppress VALUES (4, 8)"
opened 'length of no rule' 'INSERT INTO suppress VALUES (9, 8)'

opened 'route' "INSERT INTO route VALUES (254, 184549376, 8, 0, 1, -1, 'eth0', -1, 3, 253)"
opened 'destination 11.0.0.1/8' "INSERT INTO route VALUES (254, 184549377, 8, 0, 1, -1, 'eth0', -1, 3, 253)"
opened 'length 33' "INSERT INTO route VALUES (254, 184549376, 33, 0, 1, -1, 'eth0', -1, 3, 253)"
opened 'table 0' "INSERT INTO route VALUES (0, 184549376, 8, 0, 1, -1, 'eth0', -1, 3, 253)"
opened 'unicast without gateway and interface' "INSERT INTO route VALUES (254, 184549376, 8, 0, 1, -1, '', -1, 3, 253)"
opened 'blackhole with scope 253' "INSERT INTO route VALUES (254, 184549376, 8, 0, 6, -1, '', -1, 3, 253)"
opened 'interface a/b' "INSERT INTO route VALUES (254, 184549376, 8, 0, 1, -1, 'a/b', -1, 3, 253)"

opened 'a column fewer' 'DROP TABLE route;
  CREATE TABLE route (tbl INTEGER NOT NULL, net INTEGER NOT NULL, len INTEGER NOT NULL, metric INTEGER NOT NULL,
  kind INTEGER NOT NULL, via INTEGER NOT NULL, dev TEXT NOT NULL, src INTEGER NOT NULL, proto INTEGER NOT NULL,
  PRIMARY KEY (tbl, net, len, metric)) STRICT'
opened 'other columns' 'DROP TABLE route; CREATE TABLE route (tbl INTEGER NOT NULL) STRICT'
opened 'a column more' 'DROP TABLE meta; CREATE TABLE meta (id INTEGER PRIMARY KEY NOT NULL, format INTEGER NOT NULL,
  count INTEGER NOT NULL, note TEXT) STRICT'
opened 'a CHECK' 'DROP TABLE meta; CREATE TABLE meta (id INTEGER PRIMARY KEY NOT NULL, format INTEGER NOT NULL,
  count INTEGER NOT NULL CHECK (count > 0)) STRICT'

# A server tells the same.
"$prt" serve --db routes.db --listen 127.0.0.1:0 --sessions 1 2>&1
echo "status $?"
