PYTHONDONTWRITEBYTECODE=1 PYTHONPATH=$(dirname "$0")/../.. exec python3 "$(dirname "$0")/impact.py" "$1" "${PAIRS:-20}" "${PACKETS:-150}"
