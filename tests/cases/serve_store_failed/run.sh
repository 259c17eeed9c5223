# A server tells at once, and once, why a commit failed: no file of it may grow any more once it listens. Queries go on.
(trap '' XFSZ; exec "$1" serve --listen 127.0.0.1:0 --db routes.db --sessions 1 >said 2>errors) &
until [ -s said ]; do sleep 0.1; done
prlimit --pid $! --fsize=1000
exec 3<>"/dev/tcp/127.0.0.1/$(sed 's/.*://' said)"
ask() {
  echo "$1" >&3
  read -r reply <&3
  echo "$reply"
}
ask 'route add 10/8 dev eth0'
ask 'route add 11/8 dev eth0'
cat errors
ask 'route get 10.0.0.1'
exec 3>&-
wait $!
echo "status $?"
cat errors
