"""Reads the rows of a CSV file, each with the number of the line in which it begins."""
import csv
import re
from io import BytesIO
from pathlib import Path
from typing import Iterator, Optional, Sequence

from lldpa.capture.unzip import MAGIC, Unzipped
from lldpa.capture.window import AT_ONCE, BadCapture

from .limits import most_unpacked
from .plan import Faults, PlanFault

LINE = re.compile(r"[^\n]*\n|[^\n]+")  # to split all lines at once would take much memory
COMMENT = "#"
# words for errors of csv's reader, by a part of each, after which no row can be read
LAST = {"field larger": f"a field has over {csv.field_size_limit()} characters",
        "end of data": "a quoted field has no closing quote",
        "new-line": "a line ends with CR alone: save the file with LF, or with CR and LF"}
SEPARATOR = re.compile(r"sep=(.)\r?\n", re.I)  # Excel's first line


def text_of(file: str) -> str:
    """Returns the text of a file. Raises PlanFault and OSError."""
    octets = Path(file).read_bytes()
    try:
        if octets.startswith(MAGIC):
            packed = Unzipped(BytesIO(octets), b"", most_unpacked(len(octets)))
            octets = b"".join(iter(lambda: packed.read(AT_ONCE), b""))
        return octets.decode("utf-8-sig")
    except UnicodeDecodeError as fault:
        why = f"it is not text in UTF-8 (octet {fault.start})"
    except BadCapture as fault:
        why = str(fault)
    raise PlanFault([f"{file}: {why}"])


def table_of(faults: Faults, columns: Sequence[str], further: Sequence[str] = ()
             ) -> Iterator[tuple[int, list[str]]]:
    """Yields the line and the fields of each row of the file. The header must have these columns,
    perhaps followed by the further ones. Raises PlanFault and OSError."""
    rows = rows_of(text_of(faults.file), faults)
    line, header = next(rows, (1, []))
    names = [name.strip().lower() for name in header]
    if names not in (columns, [*columns, *further]):
        faults.add(line, f"the header must be {','.join([*columns, *map('[{}]'.format, further)])}")
        return
    for line, row in rows:
        yield line, [field.strip() for field in row]


def rows_of(text: str, faults: Faults, marked: Optional[set[int]] = None
            ) -> Iterator[tuple[int, list[str]]]:
    """Yields each row with its line, first the header, without blank lines and comments. Shorter
    rows are filled with empty fields. A comment begins with `#`, and is before the header or has
    fewer fields than the header; `marked` gets the lines of others that begin with `#`. A quoted
    field may span lines, even some that look like comments, but not some that look like rows.
    Reading stops at a field that is too long or has no closing quote."""
    lines, width = Lines(text), 0
    separator = lines.separator or separator_of(text)
    for row in records_of(lines, separator, faults):
        is_long = lines.number > lines.begin
        if len(row) < width and row[0].lstrip().startswith(COMMENT):
            if is_long:
                faults.add(lines.begin, "the comment has a quote that ends in a later line")
            continue
        if is_long and width > 1 and lines.has_row_inside(separator, width):
            faults.add(lines.begin, f"a quoted field in it ends in line {lines.number}, and takes "
                                    "rows with it")
            continue
        if (row[0].startswith(COMMENT) and marked is not None
                and lines.raw[0].lstrip().startswith(COMMENT)):  # else it stands in quotes
            marked.add(lines.begin)
        width, lines.is_after_header = width or len(row), True
        yield lines.begin, row if len(row) >= width else row + [""] * (width - len(row))


def records_of(lines: "Lines", separator: str, faults: Faults) -> Iterator[list[str]]:
    """Yields the fields of each row. Adds faults."""
    reader = csv.reader(lines, delimiter=separator, strict=True, skipinitialspace=True)
    while True:
        lines.is_inside = False
        try:
            row = next(reader, None)
        except csv.Error as fault:
            why = next((words for part, words in LAST.items() if part in str(fault)), "")
            faults.add(lines.begin, why or str(fault))
            if why:
                faults.end()
            continue
        if row is None:
            return
        yield row


def separator_of(text: str) -> str:
    """Returns the separator that occurs most often in the header."""
    header = next((line[0] for line in LINE.finditer(text) if begins_header(line[0])), "")
    return max(",;\t", key=header.count)


class Lines:
    """Yields the lines of a text, but skips blank lines between rows, and comments before the
    header. `number` is the latest line's number, `begin` that of the latest row's first line, and
    `separator` is the one that Excel's first line names."""

    def __init__(self, text: str) -> None:
        self._found = enumerate(LINE.finditer(text), 1)
        given = SEPARATOR.match(text)
        self.separator = given[1] if given and next(self._found) else ""
        self.raw: list[str] = []  # the lines of the latest row
        self.begin = self.number = 0
        self.is_inside = False
        self.is_after_header = False

    def __iter__(self) -> Iterator[str]:
        for self.number, found in self._found:
            line = found[0]
            if not self.is_inside:
                if not (has_fields(line) if self.is_after_header else begins_header(line)):
                    continue
                self.begin, self.is_inside = self.number, True
                self.raw = [line]
            else:
                self.raw.append(line)
            yield line

    def has_row_inside(self, separator: str, width: int) -> bool:
        """Returns whether a quoted field of the latest row, which spans lines, has one with as many
        separators as a row. The last line ends at the quote."""
        inner = [*self.raw[1:-1], self.raw[-1].partition('"')[0]] if self.raw[1:] else ()
        return any(line.count(separator) >= width - 1 for line in inner)


def has_fields(line: str) -> bool:
    """Returns whether a line has more than blanks and separators."""
    return bool(line.strip(" \t\r\n,;"))


def begins_header(line: str) -> bool:
    """Returns whether a line is neither blank nor a comment before the header."""
    return has_fields(line) and not line.lstrip().startswith(COMMENT)
