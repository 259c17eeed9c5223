head -c 104857601 /dev/zero
