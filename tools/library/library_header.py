"""Compares lldpa.h with the proved functions in crates/lldpa_c, and with the header of each release.

The names, types and order of fields, the types of parameters, and which pointers are const are those
of the proved functions. (The front asserts the size of each struct, and does not compile with other
sizes.) In C, a slice of Rattle is a pointer and a length, and a handle's memory is an opaque pointer.

tools/library/abi has the header of each release without comments, as `gcc -fpreprocessed -dD -E -P`
prints it, and a program of that release. All that stands there is unchanged as long as the library is
liblldpa.so.1; only lldpa_options may have more fields, at the end. The program runs with the library of
today, and with one that has grown as a later 1.x may.
"""
from __future__ import annotations

import hashlib
import pathlib
import re

from library_parts import FRONT, TOP, WARNINGS, Counts, Library, fault_of, write_front

ABI = TOP / "tools" / "library" / "abi"
CRATES = TOP / "crates"
CRATE = CRATES / "lldpa_c" / "src"
# The structs of other crates that C reads.
OTHERS = (CRATES / "lldp_transmit" / "src" / "parts.rt", CRATES / "lldp_engine" / "src" / "port" / "counters.rt")
# Each release whose header differs from the one before, and the digest of its header and its program.
# What was released cannot change.
RELEASES = {"1.0.0": "c16ace189436fdb64a751a60d3c5ff170d0c4d241903095a6a9603715d53b822"}
GROWS = ("lldpa_options", "LLDPA_OPTIONS_INIT")
# The numbers that fields of Rattle have by name.
LIMITS = dict(re.findall(r"const (\w+): usize = (\d+);", "".join(file.read_text() for file in CRATES.glob("*/src/**/*.rt"))))

# How the header may grow: at the end of lldpa_options, by a function with a struct of its own, by numbers. Each text is
# in the header once.
GROWTH = (
    (r"(?=\} lldpa_options;)", "    uint32_t more;\n    const lldpa_text *most;\n"),
    (r"(#define LLDPA_OPTIONS_INIT (?:.*\\\n)*.*) \}", r"\1, 7, NULL }"),
    (r"(?=/\* The status of a port: what it may do. \*/)",
     "typedef struct lldpa_more_told { uint32_t most[9]; } lldpa_more_told;\n#define LLDPA_NEWS_MORE 10\n"
     "uint8_t lldpa_more(const lldpa_agent *agent, uint32_t port, lldpa_more_told *told);\n"))
PROVED_MORE = """
uint8_t proved_lldpa_more(const lldpa_agent *agent, uint32_t port, lldpa_more_told *told)
{
    *told = (lldpa_more_told){{port}};
    return agent->open ? LLDPA_OK : LLDPA_NOT_OPEN;
}
"""

# The common names of C and Rattle types. Other types keep their name, in lower case without prefix.
TYPES = {"uint8_t": "u8", "uint16_t": "u16", "uint32_t": "u32", "size_t": "usize", "bool": "bool", "void": "()",
         "ticks_taken": "ticks", "parts": "machine", "statistics_told": "counters",
         "configuration_told": "configuration", "chassis_told": "chassis"}
LENGTH = "usize after a pointer"
Lists = dict[str, list[str]]


def bare(header: str) -> str:
    """Returns a header without its comments, and with each number on one line."""
    return re.sub(r"/\*.*?\*/|\\\n", " ", header, flags=re.S)


def structs(text: str) -> Lists:
    """Returns the fields of each struct of a bare header."""
    found = re.findall(r"typedef struct (lldpa_\w+) \{(.*?)\} \1;", text, re.S)
    return {name: split(body, ";") for name, body in found}


def functions(text: str) -> Lists:
    """Returns the type of the result and the parameters of each function of a bare header."""
    found = re.findall(r"^(\w+) (lldpa_\w+)\((.*?)\);", text, re.M | re.S)
    return {name: [answer, *split(body.replace("void", ""), ",")] for answer, name, body in found}


def numbers(text: str) -> Lists:
    """Returns the value of each number of a bare header, except its version, and the values of each INIT."""
    found = re.findall(r"^#define (LLDPA_\w+) +(\S.*)$", text, re.M)
    return {name: split(value.strip("{ }"), ",") for name, value in found if name != "LLDPA_VERSION"}


def split(text: str, mark: str) -> list[str]:
    return [" ".join(part.split()) for part in text.split(mark) if part.strip()]


def plain(name: str) -> str:
    name = re.sub(r"<'.*>$", "", name.strip()).lower().removeprefix("lldpa_").removeprefix("lldpa")
    return TYPES.get(name, name)


def of_c(declaration: str) -> str:
    """Returns the type of a C field or parameter, such as `const uint8_t *octets`."""
    if "*" in declaration:
        return "const pointer" if declaration.startswith("const ") else "pointer"
    words = declaration.replace("const ", "").split()
    length = re.search(r"\[(\d+)\]", declaration)
    return f"[{plain(words[0])}; {length[1]}]" if length else plain(words[0])


def of_rust(declaration: str) -> list[str]:
    """Returns the C types of a field or a parameter of Rattle."""
    declaration = declaration.strip()
    is_written = re.match(r"&('a )?mut |\*mut ", declaration) is not None
    pointer = "pointer" if is_written else "const pointer"
    if re.match(r"&('a )?(mut )?\[", declaration):
        return [pointer, "usize"]
    if declaration.startswith(("*", "&")):
        return [pointer]
    array = re.fullmatch(r"\[(\w+); (\w+)\]", declaration)
    if array:
        return [f"[{plain(array[1])}; {LIMITS.get(array[2], array[2])}]"]
    return {"Global": [], "Held": ["pointer"], "LldpaText<'a>": ["text"]}.get(declaration, [plain(declaration)])


def fields_of_c(fields: list[str]) -> list[str]:
    """Returns the names and types of C fields. A length after a pointer is part of a slice."""
    found: list[str] = []
    for field in fields:
        name, kind = re.findall(r"\w+", field.split("[")[0])[-1], of_c(field)
        is_length = kind == "usize" and bool(found) and found[-1].endswith(" pointer")
        found.append(LENGTH if is_length else f"{name}: {kind}")
    return found


def fields_of_rust(body: str) -> list[str]:
    """Returns the names of a Rattle struct's fields, with their types in C."""
    found: list[str] = []
    declarations = r"^ +(?:pub(?:\(crate\))? )(?:is_)?(\w+): (.*?),$"
    for name, declaration in re.findall(declarations, body, re.M):
        kind, *length = of_rust(declaration)
        found += [f"{name}: {kind}", *(LENGTH for _ in length)]
    return found


def c_lists(text: str) -> Lists:
    """Returns the types in the structs and functions of a bare header, those of the results last."""
    found = {plain(name): fields_of_c(fields) for name, fields in structs(text).items()}
    return found | {name: [*map(of_c, parameters), plain(answer)]
                    for name, (answer, *parameters) in functions(text).items()}


def rust_lists(text: str) -> Lists:
    text = re.sub(r"//[^\n]*", "", text)
    found: Lists = {}
    for name, body in re.findall(r"#\[repr\(C\)\].*?struct (\w+)(?:<'a>)? \{(.*?)\n\}", text, re.S):
        found[plain(name)] = fields_of_rust(body)
    for name, body, answer in re.findall(r"fn (lldpa_\w+)\((.*?)\)(?: -> (\w+))?[;\s]", text, re.S):
        kinds = [one.split(":", 1)[1] for one in split(body, ",")]
        found[name] = [*(one for kind in kinds for one in of_rust(kind)), plain(answer) if answer else "()"]
    return found


def check_layout(library: Library, counts: Counts) -> None:
    """Checks that the header and the crate agree."""
    text = bare((library.folder / "lldpa.h").read_text())
    # The crate's functions that only read the handle receive a copy of it, so they have no const.
    wants = c_lists(text.replace("const lldpa_agent *", "lldpa_agent *"))
    found: Lists = {}
    for file in [*sorted(CRATE.rglob("*.rt")), *OTHERS]:
        found |= rust_lists(file.read_text())
    # The crate has no lldpa_version. Its lldpa_frame_news has the type of the front's lldpa_frame.
    found["lldpa_version"] = wants["lldpa_version"]
    found["lldpa_frame"] = found.pop("lldpa_frame_news")
    for name, wanted in wants.items():
        is_same = found.get(name) == wanted
        counts.judge(None if is_same else f"{found.get(name)}, and in lldpa.h {wanted}", f"{name} in crates/lldpa_c")
    more = [name for name in found if name not in wants and name not in ("held", "()")]
    counts.judge(f"{more}" if more else None, "names of crates/lldpa_c that lldpa.h lacks")


def fault_since(released: str, header: str) -> str | None:
    """Returns what a header no longer has, or has otherwise, of a released one, or None."""
    then, now = (structs(text) | functions(text) | numbers(text) for text in map(bare, (released, header)))
    found = {name: now.get(name, [])[:len(then[name]) if name in GROWS else None] for name in then}
    changed = [f"{name}: {found[name]}, not {then[name]}" for name in then if found[name] != then[name]]
    return "\n".join(changed) or None


def grown(library: Library) -> pathlib.Path:
    """Builds a shared object as a later 1.x may be, and returns its folder."""
    header, front = (library.folder / "lldpa.h").read_text(), FRONT.read_text()
    for old, new in GROWTH:
        header, count = re.subn(old, new, header)
        assert count == 1, old
    folder = library.room / "grown"
    folder.mkdir()
    front = re.sub(r"SIZE\(options, \d+\)", "", front)
    front, count = re.subn(r"is_there \? proved", "is_there && given.more == 7 && given.most == NULL ? proved", front)
    assert count == 1, "the defaults of later fields"
    write_front(folder, header, front + PROVED_MORE)
    built = fault_of(["cc", "-std=gnu99", "-shared", "-fPIC", f"-I{folder}", folder / "front.c",
                      library.folder / "proved.a", "-o", folder / "liblldpa.so.1"])
    assert built is None, built
    return folder


def check_releases(library: Library, counts: Counts) -> None:
    """Checks that the header has all that each release had, and runs the program of each release."""
    header, later = (library.folder / "lldpa.h").read_text(), grown(library)
    for version, digest in RELEASES.items():
        released, program = ABI / f"{version}.h", ABI / f"{version}.c"
        found = hashlib.sha256(released.read_bytes() + program.read_bytes()).hexdigest()
        counts.judge(None if found == digest else found, f"{released.name} and {program.name}, which never change")
        counts.judge(fault_since(released.read_text(), header), f"lldpa.h has what it had in {version}")
        for name, included, folder in (("old", released, library.folder), ("later", released, later),
                                       ("anew", library.folder / "lldpa.h", library.folder)):
            built = library.room / f"{version}-{name}"
            fault = fault_of(["cc", "-std=c99", "-O2", *WARNINGS, "-include", included, f"-I{library.folder}", program,
                              folder / "liblldpa.so.1", f"-Wl,-rpath,{folder}", "-o", built])
            counts.judge(fault or fault_of([built]), f"the program of {version}, {name}")
