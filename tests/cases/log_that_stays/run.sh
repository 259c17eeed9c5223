# The log of a database that can't be moved into its file at the end is named, and the status is as without that. What was
# acknowledged stands in the log. No file of the run may grow any more once its last command was acknowledged.
mkfifo lines
(trap '' XFSZ; exec "$1" batch --db routes.db <lines >replies 2>errors) &
exec 3>lines
echo 'route add 10/8 dev eth0' >&3
until [ -s replies ]; do sleep 0.1; done
prlimit --pid $! --fsize=100
exec 3>&-
wait $!
echo "status $?"
cat replies errors
echo 'route get 10.0.0.1' | "$1" batch --db routes.db
