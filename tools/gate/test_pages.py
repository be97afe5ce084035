"""What the pages name exists: links and their anchors, files, options, excerpts of sources, and names of the crates.

    pytest tools/gate/test_pages.py
    PAGES=FOLDER pytest tools/gate/test_pages.py -k links    links of installed pages lead to installed files
"""
import os
import re
from pathlib import Path

import pytest

TOP = Path(__file__).resolve().parents[2]
ROOT = Path(os.environ.get("PAGES") or TOP).resolve()
PAGES = [page for page in sorted(ROOT.rglob("*.md"))
         if not re.search(r"(^|/)(out|vendor|\..*)/", page.relative_to(ROOT).as_posix())]
EACH = pytest.mark.parametrize("page", PAGES, ids=lambda page: page.relative_to(ROOT).as_posix())
ABOUT_PROOFS = pytest.mark.parametrize("page", [TOP / f"docs/{name}.md" for name in (
    "CLAIMS", "DEFINITIONS", "ARCHITECTURE", "STANDARD")], ids=lambda page: page.stem)
CRATES = [path.name for path in (TOP / "crates").iterdir()]
FOLDERS_OF_A_CRATE = ("specs", "proofs", "src", "must-fail", "wrong")
TEXTS = {path: path.read_text(errors="replace") for path in TOP.rglob("*")
         if path.is_file() and path.suffix in ("", ".antt", ".c", ".h", ".py", ".rs", ".rt", ".service", ".sh", ".txt")
         and not re.search(r"(^|/)(out|vendor|\..*)/", path.relative_to(TOP).as_posix())}
OPTION = r"(?<![\w-])--[a-z][a-z-]*[a-z]"


def without_code(text):
    return re.sub(r"^ *```.*?^ *```$", "", text, flags=re.M | re.S)


def anchors(page):
    """Returns the anchors of a page's headings, as GitHub makes them."""
    found = set()
    for heading in re.findall(r"^#+ (.*)$", without_code(page.read_text()), re.M):
        plain = re.sub(r"\[([^]]*)\]\([^)]*\)", r"\1", heading).lower()
        anchor = re.sub(r"[^\w\- ]", "", plain).replace(" ", "-")
        found.add(anchor if anchor not in found else f"{anchor}-1")
    return found


def is_reached(page, target):
    name, _, anchor = target.partition("#")
    file = (page.parent / name).resolve() if name else page
    return file.exists() and file.is_relative_to(ROOT) and (not anchor or anchor in anchors(file))


@EACH
def test_links(page):
    text = without_code(page.read_text())
    targets = re.findall(r"\]\(([^)\s]+)\)", text) + re.findall(r"^\[[^]]+\]: (\S+)$", text, re.M)
    assert [one for one in targets if not re.match(r"[a-z]+://", one) and not is_reached(page, one)] == []


def is_there(page, name):
    """Returns whether a path exists beside the page, below the top or in a crate, perhaps with an ending added."""
    folders = [page.parent, TOP, TOP / "crates"]
    if name.split("/")[0] in FOLDERS_OF_A_CRATE:
        folders += [TOP / "crates" / crate for crate in CRATES]
    ends = ("", ".antt", ".rt", ".edit")
    return any(next(folder.glob(name.rstrip("/") + end), None) for folder in folders for end in ends)


@EACH
def test_files(page):
    tops = {path.name for path in TOP.iterdir()} | set(FOLDERS_OF_A_CRATE) | set(CRATES)
    names = re.findall(r"`([\w.*/-]+)`", without_code(page.read_text()))
    paths = [name for name in names if name.split("/")[0] in tops and not re.search(r"/(out|vendor)\b|^[^/]*$", name)]
    paths += [name for name in names if name.endswith((".md", ".txt"))]
    to_fill_in = re.compile(r"\b(NAME|MODULE|TYPE|FUNCTION|FILE)\b")
    assert [name for name in paths if not to_fill_in.search(name) and not is_there(page, name)] == []


@EACH
def test_options(page):
    """Options alone in backticks, and those behind a program of ours, stand in a source."""
    text = page.read_text()
    blocks = "".join(re.findall(r"^ *```\w*\n(.*?)^ *```$", text, re.M | re.S)).splitlines()
    shown = [code for code in re.findall(r"`([^`]+)`", without_code(text)) + blocks
             if re.match(OPTION, code) or re.search(r"\blldp(a|ctl|cli)\b|tools/", code)]
    known = {option for source in TEXTS.values() for option in re.findall(OPTION, source)}
    assert {option for code in shown for option in re.findall(OPTION, code)} - known == set()


@EACH
def test_excerpts(page):
    """Blocks marked `rust` or `antt` are consecutive lines of one source."""
    sources = [re.sub(r"\n\s*", "\n", text) for path, text in TEXTS.items() if path.suffix in (".antt", ".rt")]
    for block in re.findall(r"^```(?:rust|antt)\n(.*?)^```$", page.read_text(), re.M | re.S):
        shown = re.sub(r"\n\s*", "\n", block)
        assert any(f"\n{shown}" in source for source in sources), block


@ABOUT_PROOFS
def test_names(page):
    """Each name in backticks occurs in a source, or is that of a file or a folder. Axioms are of the kit."""
    known = {part for path in TEXTS for part in (*path.parts, path.stem)}
    known |= {name for text in TEXTS.values() for name in re.findall(r"\w+(?:-\w+)*", text)}
    text = re.sub(r"^#+ The axioms.*?(?=^#|\Z)", "", without_code(page.read_text()), flags=re.M | re.S)
    names = re.findall(r"`((?:\w+::)*[A-Za-z]\w*(?:-\w+)*)`", text)
    assert {part for name in names for part in name.split("::")} - known == set()
