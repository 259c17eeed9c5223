# Gives the worked scripts about suppressed prefixes to prt, and line by line to the kernel of a network namespace that
# is made for it. Where the two say otherwise it shows that; then it shows what the kernel said.
set -u
program=$1
cases=$(dirname "$0")/..
space=prt_$$

leave_out() {
  echo "left out: $1" >&2
  exit 77
}

# A namespace with these two interfaces, which are the ends of one cable.
make_space() {
  ip netns add "$space" && ip -n "$space" link set lo up || return 1
  ip -n "$space" link add "$1" type veth peer name "$2" || return 1
  ip -n "$space" link set "$1" up && ip -n "$space" link set "$2" up
}

# What the kernel says to a line: which route it finds, what it lists, or whether it takes the line.
ask_kernel() {
  local text
  case $1 in
    *"route get"*)
      text=$(ip -n "$space" ${1/get/get fibmatch} 2>&1)
      case $text in
        *"Invalid argument"*) echo blackhole ;;
        *"unreachable"*) echo none ;;
        *" table "*) sed -E 's/ *$//; s/(.*) (table [0-9a-z]+)/\2 \1/' <<<"$text" ;;
        *) sed -E 's/ *$//; s/^/table main /' <<<"$text" ;;
      esac ;;
    *show) ip -n "$space" $1 ;;
    *) if ip -n "$space" $1 2>/dev/null; then echo accepted; else echo refused; fi ;;
  esac
}

# The replies of prt in the same words.
in_those_words() {
  sed -E 's/^ok .*/accepted/; s/^error .*/refused/; /^end /d; s/^answer [0-9]+ (rule [0-9]+ )?//; s/.*blackhole .*/blackhole/'
}

compare() {
  local line
  grep '^[a-z]' >lines
  "$program" batch --force lines | in_those_words >replies
  while IFS= read -r line; do ask_kernel "$line"; done <lines >kernel
  diff replies kernel
  cat kernel
}

command -v ip >/dev/null || leave_out "there is no ip here"
trap 'ip netns del "$space" 2>/dev/null' EXIT
make_space a1 a2 2>/dev/null || leave_out "no network namespace with two interfaces can be made here"
# The kernel takes a length without a lookup, and forgets it.
grep -v 'blackhole suppress' "$cases/suppress_prefixlength/stdin" | compare
ip netns del "$space"
make_space eth0 wg0 2>/dev/null || leave_out "no second network namespace can be made here"
compare <"$cases/../../examples/wg-quick.batch"
