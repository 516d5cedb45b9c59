"""How many cases the tests make that compare made cases, and which."""
import os

TIMES = max(1, int(os.environ.get("TESTS_MADE", "1")))  # So many times the number that a test says, which is the least.
SEED = int(os.environ.get("TESTS_SEED", "0"))
