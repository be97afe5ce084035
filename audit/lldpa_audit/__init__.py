"""Compares a plan of the cabling with the neighbors that are seen at the ports."""

__version__ = "1.0.0"
