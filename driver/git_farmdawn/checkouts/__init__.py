"""The folder of a run, its checkouts, and the tests that run in them."""
