# Bad words of `apply`, `status` and `serve`, and the first lines of help. No file is read or made.
prt=$1
ask() {
  "$prt" "$@" >answer 2>&1 </dev/null
  status=$?
  head -n 1 answer
  echo "status $status"
}
ask apply
ask apply script
ask apply --db a.db --server ./run script
ask apply --server run script
ask apply --server 127.0.0.1:1 script
ask apply --server 127.0.0.1:1 --atomic ./run script
ask apply --server ./run --atomic 127.0.0.1:1 script
ask apply --db a.db --atomic 127.0.0.1:1 script
ask apply --db a.db --dry-run --dry-run script
ask apply --db a.db a b
ask apply --db a.db --force a
ask status
ask status --server 127.0.0.1:1
ask status --server ./run --json --metrics
ask status --server ./run a
ask serve --db a.db
ask serve --db a.db --atomic 127.0.0.1:0 --feed 127.0.0.1:0
ask serve --db a.db --sockets ./run --atomic ./run
ask serve --db a.db --sockets ./run --sockets ./run
ask serve --db a.db --sockets ./run --log --log
ask follow --server localhost --all
ls
"$prt" apply --help | head -n 1
"$prt" help status | head -n 1
