# Cases of servers over TCP, run over the Unix sockets of a folder, side by side: each shows the same.
cases=$(cd "$(dirname "$0")/.." && pwd)
run() {
  mkdir "$1" && cd "$1" && PRT_SOCKETS=1 KILLS=10 bash "$cases/$1/run.sh" "$2" >../"$1.said" 2>../"$1.told"
}
# Left out: what is about ports alone.
names=(
  serve_accept_fails serve_bad_input serve_eight_clients serve_feed serve_feed_all_workers serve_feed_gone serve_feed_slow serve_group_failed serve_idle
  serve_idle_deaf serve_killed serve_listing_beside_writers serve_most_workers serve_no_descriptors serve_pipelined serve_questions
  serve_same_key serve_scripts serve_sessions serve_silent_clients serve_waiting_clients
)
if strace -o /dev/null true 2>/dev/null; then
  names+=(serve_pipelined_writes)
else
  echo serve_pipelined_writes >left_out
fi
for name in "${names[@]}"; do
  run "$name" "$1" &
done
wait
for name in "${names[@]}"; do
  if cmp -s "$cases/$name/stdout" "$name.said"; then
    echo "$name"
  else
    diff "$cases/$name/stdout" "$name.said"
    cat "$name.told"
  fi
done
[ ! -e left_out ] || cat left_out
