"""Defines the base class of all errors of this package."""


class LldpaFault(Exception):
    """An error that this package reports, for example that an agent ended or refused a line."""
