"""The way to a board for who holds it: behind OpenSSH, a unit of systemd's for each use, in a slice of the hold."""
