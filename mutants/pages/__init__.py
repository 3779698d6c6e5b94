"""Pages in HTML of one job."""
