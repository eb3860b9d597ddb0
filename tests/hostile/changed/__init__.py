"""Good texts that are cut or changed in some bytes, and the program's answers to them beside those of the second
implementation."""
