# A script can't go on after a refused line and be made together; help that is asked for is shown all the same.
for words in '--force --atomic' '--atomic --db routes.db --force' '--atomic --atomic'; do
  "$1" batch $words </dev/null 2>errors
  echo "status $?"
  head -n 1 errors
done
"$1" batch --force --atomic </dev/null 2>&1 | tail -n +2
"$1" batch --force --atomic --help | grep -- --atomic
[ ! -e routes.db ]
