"""Writes the files of a report."""
import os
from contextlib import suppress
from pathlib import Path
from typing import Iterable, Optional


def need_apart(written: Iterable[Optional[str]], read: Iterable[Optional[str]]) -> None:
    """Raises ValueError if a file that is to be written is also read, so that no plan is lost."""
    there = [file for file in written if file and os.path.isfile(file)]
    for file in filter(os.path.exists, filter(None, read)) if there else ():
        for one in there:
            if os.path.samefile(one, file):
                raise ValueError(f"{one}: it is read, and is not overwritten")


def write(file: str, texts: Iterable[str]) -> None:
    """Writes texts to a file as they are made. A regular file is replaced as a whole at the end.
    Raises OSError."""
    path = Path(file)
    try:
        if is_written_in_place(path):
            with path.open("w", encoding="utf-8") as opened:
                opened.writelines(texts)
        else:
            replace(file, texts)
    except OSError as fault:
        raise OSError(fault.errno, fault.strerror, file) from None


def is_written_in_place(path: Path) -> bool:
    """Returns whether a path is a pipe, a device or a link to one, and belongs to root or this
    user. Such a path is written in place, any other is replaced."""
    return path.exists() and not path.is_file() and path.lstat().st_uid in (0, os.geteuid())


def replace(file: str, texts: Iterable[str]) -> None:
    """Writes these texts to a temporary file, and then replaces the file with it."""
    import tempfile  # slow to load
    folder, name = os.path.split(os.path.abspath(file))
    number, path = tempfile.mkstemp(prefix=f".{name}.", dir=folder)
    try:
        with open(number, "w", encoding="utf-8") as new:
            os.fchmod(new.fileno(), 0o644)  # so that the collector, another user, can read it
            new.writelines(texts)
            new.flush()
            os.fsync(new.fileno())
        os.replace(path, file)
    except BaseException:
        with suppress(OSError):
            os.unlink(path)
        raise
