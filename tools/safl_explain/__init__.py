"""safl-explain: runs `safl`, and says more about what it refuses: the place in the source, what is meant, and what to write."""
NAME = "safl-explain"
