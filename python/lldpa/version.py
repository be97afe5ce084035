"""Adds `--version` to the programs. The package has the same version as the program lldpa, and the
audit one of its own."""

from __future__ import annotations

from typing import TYPE_CHECKING

from . import __version__

if TYPE_CHECKING:
    import argparse


def add_version(parser: argparse.ArgumentParser, version: str = __version__) -> None:
    """Adds `--version` to a program's options."""
    parser.add_argument("-V", "--version", action="version", version=f"{parser.prog} {version}",
                        help="print the version")
