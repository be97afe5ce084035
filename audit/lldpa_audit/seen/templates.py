"""Reads the text of switches by the templates of ntc-templates, with TextFSM."""
import os
import re
from importlib import import_module
from importlib.util import find_spec
from typing import Any

from .listing import SeenFault

COMMAND = "show lldp neighbors detail"
FOLDER = "NTC_TEMPLATES_DIR"  # as in ntc-templates' own tools
TEXTFSM = "textfsm (Debian: `apt install python3-textfsm`)"
TEMPLATES = f"ntc-templates (`pip install ntc-templates`, or {FOLDER}=its folder of templates)"
# how many neighbors the text has; that of Cisco's devices is cut short if it does not say it
TOTAL = re.compile(r"^Total entries displayed:\s*([0-9]{1,9})\s*$", re.M)
WITH_TOTAL = ("cisco_ios", "cisco_nxos", "cisco_xr")


def rows_of(text: str, platform: str) -> Any:
    """Returns the rows in a text. `platform` is ntc-templates' name for the device, such as
    `cisco_ios`, and `=COMMAND` may follow it. Raises SeenFault, also if a part is missing."""
    name, _, command = platform.partition("=")
    folder = templates()
    if find_spec("textfsm") is None or not folder:
        missing = TEXTFSM if find_spec("textfsm") is None else TEMPLATES
        raise SeenFault(f"it is text, and to read it --platform needs {missing}")
    clitable = import_module("textfsm.clitable")
    attributes = {"Platform": name, "Command": command or COMMAND}
    try:
        table = clitable.CliTable("index", folder)
        table.ParseCmd(text, attributes)
    except OSError as fault:
        raise SeenFault(f"{fault.filename}: {fault.strerror}") from None
    except clitable.CliTableError:
        raise SeenFault(f"{folder} has no template for {name} and `{attributes['Command']}`"
                        ) from None
    except import_module("textfsm").Error as fault:
        raise SeenFault(f"the template for {name} does not fit: {fault}") from None
    need_all(text, name, table.size)
    return [dict(zip([column.lower() for column in table.header], row)) for row in table]


def need_all(text: str, platform: str, rows: int) -> None:
    """Raises SeenFault if a text does not have as many neighbors as it says."""
    totals = TOTAL.findall(text)
    if len(totals) > 1:
        raise SeenFault(f"it has {len(totals)} lists of neighbors: give only one")
    if totals and int(totals[0]) != rows:
        raise SeenFault(f"it says that it has {totals[0]} entries, but the template finds {rows}")
    if not totals and platform in WITH_TOTAL:
        raise SeenFault("it was cut short: it does not end with `Total entries displayed`")


def templates() -> str:
    """Returns the folder of the templates, or an empty text."""
    given = os.environ.get(FOLDER)
    package = find_spec("ntc_templates")
    if given or package is None or package.origin is None:
        return given or ""
    return os.path.join(os.path.dirname(package.origin), "templates")
