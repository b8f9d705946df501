"""git's commands and names, and the history as a stream."""
