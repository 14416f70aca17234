"""Sources that are addresses of servers."""
