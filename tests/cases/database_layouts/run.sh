exec python3 "$(dirname "$0")/layouts.py" "$1"
