"""Builds the wheel of the Python package (PEP 517) with only the standard library, so that pip
needs no network."""
from __future__ import annotations

import base64
import hashlib
import io
import re
import tarfile
import zipfile
from pathlib import Path
from typing import Any, Dict, Optional

TOP = Path(__file__).resolve().parent.parent
WITHOUT = "everything except the program lldpa itself"
# each package, the folder that contains it (in a source archive, the top folder does) and its
# programs; the folder of the audit may be missing. lldpa-ctl and lldpctl are not in Python.
PACKAGES = {"lldpa": ("python", {"lldpa-capture": "lldpa.commands.capture"}),
            "lldpa_audit": ("audit", {"lldpa-audit": "lldpa_audit.command"})}
# the platform of a program, by the machine number in its ELF header
PLATFORMS = {62: "linux_x86_64", 183: "linux_aarch64"}
MOMENT = (2026, 1, 1, 0, 0, 0)  # each file's time, so that equal sources give equal wheels


def field(name: str, file: str = "pyproject.toml") -> str:
    """Returns the text of a field in a file here."""
    found = re.search(rf'^{name} = "(.*)"$', (TOP / file).read_text(), re.M)
    assert found is not None
    return found[1]


NAME = field("name")


def version() -> str:
    return field("__version__", f"{NAME}/__init__.py")


def folders() -> Dict[str, Path]:
    """Returns the folder that contains each package that is there."""
    found = {name: TOP if (TOP / name).is_dir() else TOP.parent / folder
             for name, (folder, _) in PACKAGES.items()}
    return {name: folder for name, folder in found.items() if (folder / name).is_dir()}


def package_files() -> Dict[str, Path]:
    """Returns the packages' files, by their paths in a wheel."""
    return {str(path.relative_to(folder)): path
            for name, folder in folders().items()
            for path in sorted((folder / name).rglob("*"))
            if path.suffix == ".py" or path.name == "py.typed"}


def platform_of(program: bytes) -> str:
    """Returns the platform of a program. Raises ValueError if the platform is not supported."""
    machine = int.from_bytes(program[18:20], "little")
    if program[:6] != b"\x7fELF\2\1" or machine not in PLATFORMS:
        raise ValueError(f"the program is not for {' or '.join(PLATFORMS.values())}")
    return PLATFORMS[machine]


def metadata(platform: str = "any") -> Dict[str, str]:
    """Returns the metadata files. A wheel without the program lldpa has the platform `any`."""
    has = WITHOUT if platform == "any" else "the program lldpa too"
    programs = "".join(f"{name} = {module}:main\n" for package in folders()
                       for name, module in PACKAGES[package][1].items())
    return {
        "METADATA": f"Metadata-Version: 2.1\nName: {NAME}\nVersion: {version()}\n"
                    f"Summary: {field('description')}; this wheel contains {has}\n"
                    f"Requires-Python: {field('requires-python')}\n",
        "WHEEL": f"Wheel-Version: 1.0\nGenerator: {NAME}\n"
                 f"Root-Is-Purelib: {str(platform == 'any').lower()}\nTag: py3-none-{platform}\n",
        "entry_points.txt": f"[console_scripts]\n{programs}",
        "top_level.txt": "".join(f"{name}\n" for name in folders())}


def write_wheel(folder: str, files: Dict[str, bytes], program: Optional[bytes] = None) -> str:
    """Writes a wheel of these files (and `program`, if given). Returns the wheel's name."""
    about, platform = f"{NAME}-{version()}.dist-info", "any"
    if program is not None:
        platform = platform_of(program)
        files = {**files, f"{NAME}-{version()}.data/scripts/{NAME}": program}
    told = metadata(platform)
    files = {**files, **{f"{about}/{name}": text.encode() for name, text in told.items()}}
    record = "".join(f"{name},{sum_of(octets)},{len(octets)}\n" for name, octets in files.items())
    files[f"{about}/RECORD"] = f"{record}{about}/RECORD,,\n".encode()
    name = f"{NAME}-{version()}-py3-none-{platform}.whl"
    with zipfile.ZipFile(Path(folder) / name, "w", zipfile.ZIP_DEFLATED) as wheel:
        for path, octets in files.items():
            entry = zipfile.ZipInfo(path, MOMENT)
            entry.external_attr = (0o100755 if "/scripts/" in path else 0o100644) << 16
            entry.compress_type = zipfile.ZIP_DEFLATED
            wheel.writestr(entry, octets)
    return name


def sum_of(octets: bytes) -> str:
    """Returns the checksum of a file in the form that a wheel's RECORD requires."""
    digest = base64.urlsafe_b64encode(hashlib.sha256(octets).digest())
    return f"sha256={digest.rstrip(b'=').decode()}"


def build_wheel(wheel_directory: str, config_settings: Optional[Any] = None,
                metadata_directory: Optional[str] = None) -> str:
    """Builds a wheel. The setting `program`, if given, is the path of the lldpa to include."""
    program = (config_settings or {}).get("program")
    return write_wheel(wheel_directory, {name: path.read_bytes()
                                         for name, path in package_files().items()},
                       None if program is None else Path(program).read_bytes())


def build_editable(wheel_directory: str, config_settings: Optional[Any] = None,
                   metadata_directory: Optional[str] = None) -> str:
    """Builds a wheel that refers to the packages in their folders (PEP 660)."""
    lines = "".join(f"{folder}\n" for folder in dict.fromkeys(folders().values()))
    return write_wheel(wheel_directory, {f"{NAME}.pth": lines.encode()})


def build_sdist(sdist_directory: str, config_settings: Optional[Any] = None) -> str:
    """Builds an archive of the sources from which a wheel is built."""
    front = f"{NAME}-{version()}"
    here = {str(path.relative_to(TOP)): path
            for path in (TOP / "pyproject.toml", Path(__file__).resolve())}
    files = {name: path.read_bytes() for name, path in {**package_files(), **here}.items()}
    files["PKG-INFO"] = metadata()["METADATA"].encode()
    with tarfile.open(Path(sdist_directory) / f"{front}.tar.gz", "w:gz") as archive:
        for path, octets in files.items():
            entry = tarfile.TarInfo(f"{front}/{path}")
            entry.size = len(octets)
            archive.addfile(entry, io.BytesIO(octets))
    return f"{front}.tar.gz"
