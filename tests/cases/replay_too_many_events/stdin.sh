yes call | head -n 100001
