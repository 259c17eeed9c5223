yes "" | head -n 1000000
