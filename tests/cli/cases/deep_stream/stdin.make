nested 100000
