head -c 104857600 /dev/zero
