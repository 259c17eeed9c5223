# What is refused is all that is written, and no command is made: the file has the count 0 when it is opened again.
printf 'route add 10/8 dev a1\nroute add 10/8 dev a2\n' >lines
"$1" batch --atomic lines
echo "status $?"
"$1" batch --atomic --db routes.db lines
echo "status $?"
echo 'route get 10.0.0.1' | "$1" batch --db routes.db
