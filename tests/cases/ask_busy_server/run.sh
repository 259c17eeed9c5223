PYTHONDONTWRITEBYTECODE=1 PYTHONPATH=$(dirname "$0")/../.. exec python3 "$(dirname "$0")/busy.py" "$1"
