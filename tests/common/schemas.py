"""The schemas of stores, by their numbers."""

# The schema of the stores that the program makes. `tests/program` reads this line, too.
CURRENT = 4

# Those of earlier stores, which it migrates.
EARLIER = range(1, CURRENT)
