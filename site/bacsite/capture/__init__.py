"""The requests of a capture file, and their answers."""
