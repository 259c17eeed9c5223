exec python3 "$(dirname "$0")/killed.py" "$1"
