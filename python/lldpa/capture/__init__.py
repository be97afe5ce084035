"""Reads the packets of captures, and converts captures to a trace for lldpa."""
