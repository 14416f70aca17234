"""The questions that are asked of objects. Each has a module, and nothing else is here."""
