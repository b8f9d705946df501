"""Who tests what, and when it ends; answers that are tested again."""
