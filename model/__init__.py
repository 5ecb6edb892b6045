"""A model of the server, made from its rules alone, which shares nothing with the program (docs/MODEL.md)."""
