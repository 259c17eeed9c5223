PYTHONDONTWRITEBYTECODE=1 PYTHONPATH=$(dirname "$0")/../.. exec python3 "$(dirname "$0")/late.py" "$1"
