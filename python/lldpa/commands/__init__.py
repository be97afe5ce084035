"""Contains the programs. Each module reads the arguments of one program and runs it."""
