"""The runners of the repository's checks. Each is run at the top, as in `python3 -m tests.house.run`."""
