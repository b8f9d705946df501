"""The pipe to `farmdawn serve`, and what is said there."""
