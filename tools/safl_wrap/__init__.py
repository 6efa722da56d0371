"""Wrappers with valid and ready around modules that `safl build` wrote, and test benches for them."""
