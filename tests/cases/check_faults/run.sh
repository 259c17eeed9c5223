# A file that is missing, one that can't be read, a full output, bad words and help. No database is made.
"$1" check missing 2>errors
echo "status $?"
cat errors
"$1" check . 2>/dev/null
echo "status $?"
echo link | "$1" check >/dev/full 2>/dev/null
echo "status $?"
"$1" check --force 2>/dev/null
echo "status $?"
"$1" check a b 2>/dev/null
echo "status $?"
"$1" check --help | head -n 1
ls
