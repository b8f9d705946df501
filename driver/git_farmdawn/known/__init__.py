"""What is known of a test: outcomes, those that are kept, and those that can be seen to be
wrong."""
