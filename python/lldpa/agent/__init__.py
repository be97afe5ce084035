"""Runs lldpa or connects to it, and reads the output of its `show` commands."""
