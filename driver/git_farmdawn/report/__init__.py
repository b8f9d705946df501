"""The report: its facts, and what is made of them."""
