"""Reads JSON as devices and tools print it: after a prompt or a banner, and with odd names."""
import json
import re
from typing import Any

from .listing import SeenFault

# where JSON begins; `{master:0}` in Junos' prompt does not match
BEGIN = re.compile(r'^[ \t]*(?=\{\s*["}]|\[\s*["{\[\]])', re.M)
LONGEST_BANNER = 4096
# JSON that follows other JSON in the same line, as if two commands wrote into one file
AGAIN = re.compile(r'[\s,]*(?:\{\s*["}]|\[\s*["{\[\]])')
# a line in which lldpcli writes a name, such as the System Name, without escapes
NAME_LINE = re.compile(r'^( *)"(.*)": ([{\[])$', re.M)
TOKEN = re.compile(r'("[^"\\]*(?:\\.[^"\\]*)*")(\s*:)?|[{}\[\]]', re.S)


class Twice(ValueError):
    """An object has a name twice."""


def tree_of(text: str, begin: int) -> Any:
    """Returns the tree of the JSON that begins at `begin`. Names may have quotes, backslashes and
    control characters without escapes, as lldpcli writes them. Raises SeenFault."""
    try:
        return decoded(text, begin)
    except json.JSONDecodeError as fault:
        escaped = NAME_LINE.sub(lambda line: f"{line[1]}{json.dumps(line[2])}: {line[3]}", text)
        try:
            return decoded(escaped, begin)
        except json.JSONDecodeError:
            raise SeenFault(f"it is not valid JSON: line {fault.lineno}: {fault.msg}") from None


def decoded(text: str, begin: int) -> Any:
    """Returns the tree of JSON, with numbers as texts. Raises SeenFault and JSONDecodeError."""
    try:
        tree, end = DECODER.raw_decode(text, begin)
    except Twice:
        raise fault_of_twice(text, begin) from None
    except RecursionError:
        raise SeenFault("its JSON is nested too deeply") from None
    is_other = AGAIN.match(text, end) or BEGIN.search(text, end)
    if is_other or len(text[end:].strip()) > LONGEST_BANNER:
        raise SeenFault("more than a prompt follows its JSON: save the output of only one command")
    return tree


def each_once(pairs: list[tuple[str, Any]]) -> dict[str, Any]:
    """Returns an object from its names and values. Raises Twice."""
    found = dict(pairs)
    if len(found) < len(pairs):
        raise Twice
    return found


DECODER = json.JSONDecoder(strict=False, parse_int=str, parse_float=str, parse_constant=str,
                           object_pairs_hook=each_once)


def fault_of_twice(text: str, begin: int) -> SeenFault:
    """Returns the fault of an object that has a name twice, with both lines."""
    objects: list[dict[str, int]] = [{}]
    for found in TOKEN.finditer(text, begin):
        if found[0] in "{[":
            objects.append({})
        elif found[0] in "}]":
            objects.pop()
        elif found[2]:
            name = json.loads(found[1], strict=False)
            before = objects[-1].setdefault(name, found.start())
            if before != found.start():
                first, second = (text.count("\n", 0, at) + 1 for at in (before, found.start()))
                return SeenFault(f"the name {name!r} is in it twice: lines {first} and {second}")
    return SeenFault("a name is in it twice")
