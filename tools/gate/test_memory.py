"""Checks in the sources what types and contracts do not show.

Memory: only `Room` allocates memory, at opening. In lldp_program and the crates below, only Room's
module names a type that allocates memory. Below lldp_program, only `Room` has a field with an
allocator, and only opening calls receive one. They pass it only to opening calls, to each once, for
no more room than needed. Only modules that read the arguments receive the runtime's `Global`.

Accesses: `Times` counts each access to a stored time. Only its functions `get`, `set` and `look`
reach the times. A `Times` cannot be copied. `look` does not count, and only `Table::entries`,
`Table::entry` and `Table::soonest` use it. No tick calls these: the program calls `entries` to show
neighbors, and only the library and tests call the others. The types of a table have only known
fields, since another field could store times. Only two functions of `Count` and those of a C handle
have proofs by hand, which could claim any count.
"""
from __future__ import annotations

import pathlib
import re

import pytest

TOP = pathlib.Path(__file__).resolve().parents[2]
CRATES = TOP / "crates"
BELOW_THE_PROGRAM = ("lldp_pdu", "lldp_table", "lldp_transmit", "lldp_text", "lldp_engine")
ROOM = "lldp_table/src/room.rt"
MOST_LINES_OF_ROOM = 100
ROOM_TAKES = "Vec::with_capacity(alloc, capacity)?"
ROOM_HAS = "{\n    items: Vec<T, A>,\n}"
TAKES_MEMORY = r"\b(?:Vec|VecDeque|Box|String|Rc|Arc|HashMap|BTreeMap|vec!|format!|dyn)\b"
ALLOCATOR = r"\b(\w+): (?:&(?:'\w+ )?)?(?:mut )?(?:A|Global|impl Allocator)\b"
HOLDS_A_ROOM = r"\b(?:Room<\w+(?:<A>)?, A>|Table<A>|Port<A>)"
LIBRARY_OPENS = "lldpa_c/src/open.rt"
# The calls that pass an allocator on. Each occurs once, in the module that follows it.
HANDED_ON = {
    "Room::open(alloc, limit as usize)": "lldp_table/src/table.rt",
    "Table::open(alloc, options.max_neighbors)": "lldp_engine/src/port.rt",
    "Room::open(alloc.clone()?, options.ports.len())": "lldp_engine/src/agent/ports.rt",
    "Port::open(alloc.clone()?, name.as_bytes(), options)": "lldp_engine/src/agent/ports.rt",
    "open_ports(alloc, options)": "lldp_engine/src/agent.rt",
    "Agent::open(alloc, &options)": "lldp_program/src/program.rt",
    "run_words(rt, alloc, words,": "lldp_program/src/program.rt",
    "run_matches(rt, alloc, &matches,": "lldp_program/src/program.rt",
    "parse(alloc, words)": "lldp_program/src/program.rt",
    "Agent::open(alloc, &given)": LIBRARY_OPENS,
    "Box::new(alloc, agent)": LIBRARY_OPENS,
}
PROGRAM = "lldp_program/src/program.rt"
READ_THE_WORDS = ("lldpa/src/main.rt", "lldp_program/src/program.rt", "lldp_program/src/arguments.rt")
HANDLES = "lldpa_c/proofs/handle/"
WALKS = [f"lldp_table/proofs/count/Count/{name}/Proof.antt" for name in ("add", "new")]
TABLE = "lldp_table/src/"
ABOVE_THE_TABLE = ("lldp_engine", "lldp_program", "lldpa/")
LOOKS = r"\.(?:entries|entry|soonest)\(|::(?:entries|entry|soonest)\b(?!::)"
# Patterns, the crates that are searched for each, and how often it must occur in each module.
REACHED = (
    (r"\bself\.each\b", TABLE, {TABLE + "times.rt": 3}),
    (r"\bself\.each\[slot as usize\]", TABLE, {TABLE + "times.rt": 3}),
    (r"\bTimes \{", TABLE, {TABLE + "times.rt": 4}),
    (r"\blook\b", TABLE, {TABLE + "times.rt": 2, TABLE + "queue.rt": 1}),
    (r"\blefts?_in\(", TABLE, {TABLE + "queue.rt": 2}),
    (r"(?:\.|::)(?:lefts|left_of)\b", TABLE, {TABLE + "table.rt": 2}),
    (LOOKS, TABLE, {TABLE + "table.rt": 1}),
    (r"\bEntries \{", TABLE, {TABLE + "table.rt": 1}),
    (r"\bCount::new\(", TABLE, {TABLE + "times.rt": 1}),
    (r"\bTimes::new\(", TABLE, {TABLE + "queue.rt": 1}),
    (r"\bQueue::new\(", TABLE, {TABLE + "table.rt": 1}),
    (LOOKS, ABOVE_THE_TABLE, {"lldp_engine/src/show/neighbor_lines.rt": 1, "lldp_engine/src/show/cursor.rt": 1}),
    *((re.escape(call), "", {module: 1}) for call, module in HANDED_ON.items()),
)
COUNTING = ("count.rt", "times.rt", "queue.rt")
# The fields of the types that make up a table.
HOLDS = {"Count": "number", "Times": "each count", "Queue": "slots last times",
         "Slot": "ttl length room", "Table": "slots order used gone queue tags limit too_many"}
FIELD = r"(?:^|[{,])\s*(?:pub(?:\(crate\))? )?(?:ghost )?(\w+):"


def without_comments(text: str) -> str:
    return re.sub(r"//.*", "", text)


# The code of all crates except the tests, by its paths below `crates`.
CODE = {name: without_comments(path.read_text()) for path in sorted(CRATES.glob("*/src/**/*.rt"))
        for name in [str(path.relative_to(CRATES))] if "/tests" not in name and not name.startswith("lldp_tests/")}


def code_of(crates: "str | tuple[str, ...]") -> "dict[str, str]":
    return {name: code for name, code in CODE.items() if name.startswith(crates)}


def functions_handed(code: str) -> str:
    """Returns the functions that take an allocator, and the parameter's name if not `alloc`."""
    heads = re.findall(r"\bfn (\w+)(?:<[^(]*>)?\(([^{;]*?)\)", code)
    taken = [(name, one) for name, all_taken in heads for one in re.findall(ALLOCATOR, all_taken)]
    return "\n".join(name if one == "alloc" else f"{name} ({one})" for name, one in taken)


def fields(code: str) -> str:
    """Returns the bodies of all structs and enums, which declare their fields."""
    return "\n".join(re.findall(r"\b(?:struct|enum) \w+[^{;]*\{(.*?)\n\}", code, re.S))


# What code must not contain. Each rule has the crates, the part of their code that is searched, a
# pattern that is removed first, the forbidden pattern, the modules that may have it, and the fault.
# Only `Room` may have a field with an allocator, but other types may have fields with a `Room`.
FORBIDDEN = (
    ((*BELOW_THE_PROGRAM, "lldp_program"), str, None, TAKES_MEMORY, (ROOM,),
     "names a type that allocates memory"),
    (BELOW_THE_PROGRAM, str, None, r"\b(?!A:)\w+: [\w +]*\bAllocator\b", (),
     "has an allocator whose type is not A"),
    ((*BELOW_THE_PROGRAM, PROGRAM), str,
     "|".join([r"\balloc: (?:A|Global)\b|\bstd::alloc\b", *map(re.escape, HANDED_ON)]),
     r"\balloc(?:ator)?\b", (ROOM,), "passes an allocator elsewhere"),
    (("lldp_", "lldpa/"), str, r"(?ms:^use .*?;)|: Global\b[,)]|<A: Allocator = Global>",
     r"\bGlobal\b", (), "makes a Global of its own"),
    (("lldpa/", "lldp_program"), str, None, r": Global\b|\bHostRuntime\b|\.alloc\(\)",
     READ_THE_WORDS, "receives an allocator"),
    ("lldpa_c/", str,
     r"\bspecs\.Box\b|\bBox<\w+(?:, A)?>|\bBox::(?:new\(alloc, agent\)|into_raw|from_raw)",
     TAKES_MEMORY, (), "names a type that allocates memory"),
    (BELOW_THE_PROGRAM, fields, HOLDS_A_ROOM, r"\b(?:A|Global)\b", (ROOM,), "has an allocator"),
    (BELOW_THE_PROGRAM, functions_handed, r"(?m:^(?:open|open_ports)$)", r"\w+", (),
     "passes an allocator to a call"),
)


def test_room():
    """The module of `Room` allocates memory once, and is short enough to read."""
    text = (CRATES / ROOM).read_text()
    code = re.sub(r"\bstd::alloc\b", "", without_comments(text))
    assert text.count("\n") <= MOST_LINES_OF_ROOM
    assert code.count("alloc") == 2, "it names its allocator at another place than the two"
    assert ROOM_TAKES in code
    assert ROOM_HAS in code and code.count("Vec") == 2, "it does not keep its Vec to itself"


@pytest.mark.parametrize("crates,part,left_out,sought,allowed,fault", FORBIDDEN, ids=[rule[-1] for rule in FORBIDDEN])
def test_forbidden(crates, part, left_out, sought, allowed, fault):
    for name, code in code_of(crates).items():
        found = re.search(sought, re.sub(left_out, "", part(code)) if left_out else part(code))
        assert found is None or name in allowed, f"{name}: {fault}"


@pytest.mark.parametrize("pattern,crates,modules", REACHED)
def test_reached(pattern, crates, modules):
    """Each pattern occurs in these modules alone, and so often."""
    counts = {name: len(re.findall(rf"(?<!fn ){pattern}", code)) for name, code in code_of(crates).items()}
    assert {name: count for name, count in counts.items() if count} == modules


@pytest.mark.parametrize("module", COUNTING)
def test_no_stored_time_can_be_copied(module):
    code = CODE[TABLE + module]
    assert set(re.findall(r"#\[derive\((.*?)\)\]", code)) == {"Drop"}
    assert set(re.findall(r"^impl(?:<.*?>)? (\w+)(?:<.*?>)? for\b", code, re.M)) == {"Model"}


@pytest.mark.parametrize("name,held", HOLDS.items())
def test_fields(name, held):
    """A further field of a table's types could store times too."""
    code = "\n".join(code_of(TABLE).values())
    body = re.search(rf"\bstruct {name}\b[^{{;]*\{{(.*?)\n\}}", code, re.S)
    assert body and re.findall(FIELD, body[1]) == held.split()


def test_proofs_by_hand():
    """Only `Count` and the C library's handles have proofs written by hand."""
    names = [str(path.relative_to(CRATES)) for path in CRATES.glob("*/proofs/**/Proof.antt")]
    assert names and [name for name in names if not name.startswith(HANDLES) and name not in WALKS] == []
