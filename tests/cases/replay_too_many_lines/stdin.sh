yes "" | head -n 1000001
