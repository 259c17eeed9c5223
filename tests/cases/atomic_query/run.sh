# A query is no command that can be made.
printf 'route add 10/8 dev a1\nrule show\n' >lines
"$1" batch --atomic lines
echo "status $?"
"$1" batch --atomic --db routes.db lines
echo "status $?"
echo 'route get 10.0.0.1' | "$1" batch --db routes.db
