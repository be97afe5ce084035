"""Imports the package `lldpa` in place of this package.

`unittest discover` searches only this folder, so this adds the package's folder to sys.path.
"""
import importlib
import sys
from pathlib import Path

sys.path.insert(0, str(Path(__file__).resolve().parents[2]))
del sys.modules[__name__]
sys.modules[__name__] = importlib.import_module(__name__)
