"""This machine: files, children and their ends, timers and signals."""
