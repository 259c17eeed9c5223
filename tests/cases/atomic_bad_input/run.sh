# Input that can't be read to its end leaves a file as it was, whatever commands stand before the fault.
prt=$1
run() {
  echo "$1"
  "$prt" batch --atomic --db routes.db 2>&1
  echo "status $?"
}
good='route add 10/8 dev a1\nrule add table 7\n'
{ printf "$good"; printf 'rule show%1016s\n' ''; } | run 'a line of 1025 bytes'
{ printf "$good"; printf '%65537s' '' | tr ' ' a; } | run 'an unended line of 65537 bytes'
{ printf "$good"; yes a | tr -d '\n'; } | run 'a line without end'
{ printf "$good"; yes ''; } | run 'lines without end'
{ printf "$good"; printf 'route add \303\251\n'; } | run 'a byte that is not ASCII'
run 'a folder' <.
echo 'a folder that is named'
"$prt" batch --atomic --db routes.db . 2>&1
echo "status $?"
echo 'an input that fails within a line'
python3 "$(dirname "$0")/reset.py" "$prt" 2>&1
echo 'route get 10.0.0.1' | "$prt" batch --db routes.db
