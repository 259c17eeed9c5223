# A file of random bytes is refused, and is as it was.
head -c 8192 /dev/urandom >random.db
cp random.db before.db
echo 'route add 10/8 dev eth0' | "$1" batch --db random.db 2>&1
echo "status $?"
cmp random.db before.db && echo unchanged
