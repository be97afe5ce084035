"""For tests: the package jsonschema, of this Python or of Debian's."""

import importlib
import sys
from typing import Any

DEBIAN = "/usr/lib/python3/dist-packages"


def found() -> Any:
    """Returns the package, or None. Debian's is only on the path of Debian's Python."""
    for folders in ([], [DEBIAN]):
        sys.path += folders
        try:
            return importlib.import_module("jsonschema")
        except ImportError:
            continue
    return None


jsonschema = found()
LACKS_IT = "python3-jsonschema: it is not installed"
