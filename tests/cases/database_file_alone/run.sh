# A run closes its database at the end, so that the file alone has all of it, without the log beside it.
prt=$1
printf 'route add 10/8 dev a\nrule add from 10/8 table 7\n' | "$prt" batch --db routes.db
mkdir alone
mv routes.db alone
printf 'rule show\nroute show\n' | "$prt" batch --db alone/routes.db
