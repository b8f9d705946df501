"""The words of a line, and what they mean in this repository."""
