PYTHONDONTWRITEBYTECODE=1 PYTHONPATH=$(dirname "$0")/../.. exec python3 "$(dirname "$0")/impact.py" "$1" "${ROUNDS:-200}" "${PACKETS:-10000}"
