"""Reports of answers: their forms, groups of findings, sums, and what they leave out."""
