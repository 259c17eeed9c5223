# Bad words and help of `impact`, `assert` and `unused`, and of `--impact` after `diff`. No file is read.
prt=$1
ask() {
  "$prt" "$@" >answer 2>&1 </dev/null
  status=$?
  head -n 1 answer
  echo "status $status"
}
ask impact
ask impact commands
ask impact --db a.db
ask impact --db a.db script commands
ask impact script commands more
ask impact - -
ask impact --db a.db --server 127.0.0.1:1 commands
ask impact --server localhost commands
ask impact --db a.db --db b.db commands
ask impact script commands --db
ask impact --exact --exact script commands
ask impact --names script commands
ask assert claims
ask assert --explain -- - -
ask assert --json script claims
ask unused --db a.db script
ask unused --server 127.0.0.1:1 -
ask unused --db a.db --server 127.0.0.1:1
ask unused a b
ask unused --json
ask diff --db a.db --all --check --impact
ask diff --server 127.0.0.1:1 --all --impact --impact
ls
"$prt" impact --help
"$prt" help assert
"$prt" unused -h
