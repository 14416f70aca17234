"""What the objects of a source say about each other: folders and what they hand on, groups, tokens, machines."""
