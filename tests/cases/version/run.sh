# The version goes to standard output, and under it the formats that are read. It is asked of the program alone.
"$1" --version
echo "status $?"
"$1" -V | head -n 1
"$1" batch --version >/dev/null 2>&1
echo "status $?"
