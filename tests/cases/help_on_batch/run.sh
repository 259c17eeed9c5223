# Help goes to standard output, and nothing to standard error.
"$1" help batch >help 2>errors
echo "status $?"
head -n 1 help
cat errors
