# A file without commands writes nothing, and no transaction is made.
printf '\n# route add 10/8 dev a1\n' >lines
"$1" batch --atomic --db routes.db lines
echo "status $?"
"$1" batch --atomic --db routes.db </dev/null
echo "status $?"
echo 'route get 10.0.0.1' | "$1" batch --db routes.db
