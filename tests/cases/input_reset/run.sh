exec python3 "$(dirname "$0")/reset.py" "$1" 2>&1
