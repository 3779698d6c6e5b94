"""The programs mothra and equivalents: where they are found, and how they are called."""
