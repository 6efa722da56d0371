"""The parts of safl-explore: trees of sources, steps, what sources cost, the search, calls written out, and what is told."""
NAME = "safl-explore"
