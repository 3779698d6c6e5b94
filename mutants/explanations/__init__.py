"""What each fault means, and where in a job it is."""
