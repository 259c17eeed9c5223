strace -o /dev/null true 2>/dev/null || { echo "strace can't run here" >&2; exit 77; }
PYTHONDONTWRITEBYTECODE=1 PYTHONPATH=$(dirname "$0")/../.. exec python3 "$(dirname "$0")/writes.py" "$1"
