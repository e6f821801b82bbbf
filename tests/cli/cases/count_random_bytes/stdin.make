random_bytes 1 3000
