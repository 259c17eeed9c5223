# A refused line is named; a refusal of the commands together is counted, and is of no line.
printf 'route add 10/8 dev a1\n\nroute add x\nroute add y\n' >lines
"$1" batch --atomic --verbose lines
printf 'route add 10/8 dev a1\nroute add 10/8 dev a2\n' | "$1" batch --verbose --atomic
printf 'route add 10/8 dev a1\nrule add table 7\n' | "$1" batch --verbose --atomic
