for n in $(seq 1 998) 997; do echo "rule add priority $n table 100"; done
