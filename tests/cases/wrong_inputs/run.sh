# Wrong inputs: each line with its reply, and with what a person is told of it on standard error. The word in quotes is the
# one that the first fault is about.
cp "$(dirname "$0")/inputs" .
"$1" batch --force --verbose inputs >replies 2>messages
status=$?
paste -d '\n' inputs <(sed 's/^/  /' replies) <(sed '$d; s/^/  /' messages)
tail -n 1 messages
exit $status
