# Numbers go on from those that the database has. A command sees what those before it make.
printf 'route add 10/8 dev a1\n' | "$1" batch --db routes.db
printf 'route replace 10/8 dev a2\nroute add 11/8 via 192.0.2.1\nrule add from 10/8 table 7\nroute del 11/8\nrule add iif a2 table 8\n' >lines
"$1" batch --atomic --db routes.db lines
printf 'route show\nrule show\nroute get 10.0.0.1\nroute flush table main\n' | "$1" batch --db routes.db
