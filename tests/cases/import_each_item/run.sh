# Each item of a route and of a rule that `ip` can make: its line is kept, is kept without what is told, or is left out and told.
command -v ip >/dev/null || { echo "left out: there is no ip here" >&2; exit 77; }
space=prt_items_$$
trap 'ip netns del "$space" 2>/dev/null' EXIT
ip netns add "$space" 2>/dev/null || { echo "left out: no network namespace can be made here" >&2; exit 77; }
python3 "$(dirname "$0")/items.py" "$1" "$space"
