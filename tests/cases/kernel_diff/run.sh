command -v ip >/dev/null || { echo "left out: there is no ip here" >&2; exit 77; }
space=prt_diff_$$
trap 'ip netns del "$space" 2>/dev/null; ip netns del "$space"s 2>/dev/null' EXIT
for name in "$space" "$space"s; do
  ip netns add "$name" 2>/dev/null || { echo "left out: no network namespace can be made here" >&2; exit 77; }
done
examples=$(dirname "$0")/../../../examples
python3 "$(dirname "$0")/diff.py" "$1" "$space" 12
python3 "$(dirname "$0")/diff.py" "$1" "$space"s "$examples"/two-uplinks.batch "$examples"/wg-quick.batch
