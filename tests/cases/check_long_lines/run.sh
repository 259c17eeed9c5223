# The limits of lines are those of a session: 1,024 bytes, 65,536 without an end, and 1,000,000 lines.
{ printf 'route get 1%1014s\n' ""; printf 'route get 1%1013s\n' ""; printf 'x%.0s' {1..65537}; printf '\nlink\n'; } | "$1" check
echo "status $?"
yes "" | head -n 1000000 | "$1" check
echo "status $?"
yes "" | head -n 1000001 | "$1" check
echo "status $?"
