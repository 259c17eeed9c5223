# Each kind of change, in a run of its own on one file; after each run, what a new one reads.
prt=$1
run() { "$prt" batch --db routes.db; }
while read -r command; do
  echo "$command" | run
  printf 'rule show\nroute show table all\n' | run
done <<'LINES'
route add 10.1/16 via 192.0.2.1 dev eth0 src 192.0.2.10 metric 5
route add throw 10/8 table 7
route replace 10.1/16 dev eth1 metric 5
route del 10.1/16
rule add not from 10/8 iif eth0 fwmark 7/0xff priority 5 table 100
rule del priority 5
rule flush
route flush table 7
LINES
