"""Recognizes the form of a list of neighbors, or says what a file in no known form may be."""
import codecs
import re
from typing import Any, Callable
from xml.etree import ElementTree

from .json_text import BEGIN, LONGEST_BANNER, tree_of
from .listing import Listing, SeenFault
from .shows import read_ports
from .snmp import IS_WALK, read_walk
from .templates import rows_of
from .trees import USE_A_LIST, USE_JSON, last_line, listing_of

TEXT = bytes([*b"\t\r\n\x1b\a\b", *range(0x20, 0x100)])
UTF_16 = (codecs.BOM_UTF16_LE, codecs.BOM_UTF16_BE)
# XML with a document type does not match, so no entity can be declared or expanded
XML = re.compile(r"\s*(?:<\?xml[^>]*>\s*)?<(?:rpc-reply|multi-routing|lldp-neighbors)")
FORMS: tuple[tuple[re.Pattern[str], Callable[[str], Listing]], ...] = (
    # `show neighbors` may be of one port only, so nothing is known of ports that it lacks
    (re.compile(r"lldp\.[^=\n]+\.neighbors="), lambda text: Listing(read_ports(text), False)),
    (IS_WALK, read_walk),
    (XML, lambda text: listing_of(tree_of_xml(text), read_text)),
)
AT_ONCE = 1 << 16
NO_MEMORY = 1  # the code of XML_ERROR_NO_MEMORY
FAILED = "the command that wrote it failed"
PLAIN = ("it looks like a switch's plain text: use `show lldp neighbors detail | json`, or "
         "--platform")
# what a text is if it is not a list of neighbors: a pattern for its beginning, and the message
CAUSES = (
    (r"lldp\.[^\n=]+\.via=", f"it is in lldpcli's keyvalue format: {USE_JSON}"),
    (r"-{70,}\nLLDP neighbors:", f"it is lldpcli's plain text: {USE_JSON}"),
    (r"(?:<\?xml[^>]*>)?\s*<lldp\b", f"it is lldpcli's XML: {USE_JSON}"),
    (r"lldp\.", "it is the output of another show command: use `lldpa-ctl show neighbors`"),
    (r"\s*<(?:!DOCTYPE html|html)", "it is a web page, such as a login page"),
    (r"\s*<", "it is XML, but not a known list of neighbors: use `show lldp neighbors detail | "
              "display xml`"),
    (r"---\s|[\w./-]+:[ \t]*\n\s*(?:- |[\w./-]+:)", f"it is YAML: {USE_A_LIST}"),
    (r"[\w\" ./-]*(?:[,;\t][\w\" ./-]*){3,}\n", "it is CSV, as a plan is: the plan is the first "
                                              f"argument; for a list, {USE_A_LIST}"),
    (r"\s*[{\[]", "it begins like JSON, but is not valid JSON"),
    (r"(?is:.{0,4000}?(?:traceback \(most|invalid (?:input|command)|command not found|"
     r"permission denied|connection (?:refused|timed)|unknown command|syntax error))",
     FAILED),
    (r"\s*\Z", "it is empty"),
    ("", PLAIN),
)


def read_list(octets: bytes, platform: str = "") -> Listing:
    """Returns the neighbors of each port. A switch's text is read by the templates for `platform`,
    if that is given. Raises SeenFault and ShowFault."""
    return read_text(text_of(octets), platform)


def read_text(text: str, platform: str = "") -> Listing:
    """Returns the neighbors of each port. Raises SeenFault and ShowFault."""
    for begin, read in FORMS:
        if begin.match(text):
            return read(text)
    found = BEGIN.search(text, 0, LONGEST_BANNER)
    if found:
        # tools remove the last line feed of what a command printed
        return listing_of(tree_of(text, found.end()), lambda one: read_text(one + "\n", platform))
    cause = next(cause for begins, cause in CAUSES if re.match(begins, text))
    if cause == PLAIN and platform:
        if not text.endswith("\n"):
            raise SeenFault("its last line is incomplete: it was cut short")
        return listing_of(rows_of(text, platform), read_text)
    raise SeenFault(f"{cause}: {last_line(text)}" if cause == FAILED else cause)


def tree_of_xml(text: str) -> Any:
    """Returns XML as a tree like that of Junos' JSON. Raises SeenFault."""
    root, parser = ElementTree.Element("root"), ElementTree.XMLParser()
    try:
        for at in range(0, len(text), AT_ONCE):  # between two pieces, its limits are looked at
            parser.feed(text[at:at + AT_ONCE])
        root.append(parser.close())
        return node_of(root)
    except (ElementTree.ParseError, RecursionError, ValueError) as fault:
        if getattr(fault, "code", 0) == NO_MEMORY:
            raise MemoryError from None
        raise SeenFault(f"it is not valid XML: {fault}") from None


def node_of(element: ElementTree.Element) -> dict[str, Any]:
    """Returns an element as an object: its text, and its parts by their names."""
    node: dict[str, Any] = {}
    for part in element:
        name = part.tag.rpartition("}")[2]  # without its namespace
        node.setdefault(name, []).append(node_of(part))
    return node or {"data": (element.text or "").strip()}


def text_of(octets: bytes) -> str:
    """Decodes octets. Lines of the text end with a line feed alone."""
    if octets.startswith(UTF_16):
        text = octets.decode("utf-16", "replace")
    else:
        text = octets.decode("utf-8-sig", "surrogateescape")
    return text.replace("\r\n", "\n") if "\r\n" in text else text


def is_text(front: bytes) -> bool:
    """Returns whether octets begin like text. A capture has other control characters."""
    return front.startswith(UTF_16) or not front.translate(None, TEXT)
