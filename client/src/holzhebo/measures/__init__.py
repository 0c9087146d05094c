"""What a collector of Prometheus reads of a broker: its proxy's log, its file, the copies of that, and its service."""

# The bytes that a file of one broker is meant for: docs/OPERATING.md, "Capacity".
MOST_BYTES = 200_000_000
