"""What Windows means by SIDs, rights and ACEs. The tables are those of windows/ at the top of the repository."""
