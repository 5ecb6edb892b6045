"""Images for hawkBit's clients: what the server has of them, and a large one itself."""
