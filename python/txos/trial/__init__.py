"""What comes of a recording where one of its processes is a transaction."""
