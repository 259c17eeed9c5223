exec python3 "$(dirname "$0")/terminal.py" "$1"
