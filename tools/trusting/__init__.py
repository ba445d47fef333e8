"""What a contract rests on, read from the sources: see tools/trusted."""
