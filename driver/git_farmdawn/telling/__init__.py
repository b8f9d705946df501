"""What all others share: the facts that they hand to each other, and how they are told."""
