#!/usr/bin/env python3
"""Writes the rows of examples/vectors.rows about LLDPDUs as theorems.

    tools/write/vectors.py [FILE]

FILE is crates/lldp_pdu/proofs/Vectors/Rows.antt by default.
"""
from __future__ import annotations

import argparse
import pathlib
import re
from itertools import groupby

TOP = pathlib.Path(__file__).resolve().parents[2]
ROWS = TOP / "examples" / "vectors.rows"
FILE = TOP / "crates" / "lldp_pdu" / "proofs" / "Vectors" / "Rows.antt"
# This many equal octets, or more, are written with `replicate`.
LONG_RUN = 8
FAULTS = ("Truncated", "NoChassis", "ChassisLength", "NoPort", "PortLength", "NoTtl", "TtlLength", "Repeated")
UNFOLDED = ("cut_within cut extent ended_incomplete ttl_of msap_of later_tlvs is_well_formed fault_of kept_of "
            "discarded_of")

HEAD = """-- The rows of examples/vectors.rows, written by tools/write/vectors.py: each is computed from the definitions alone.
use Rattle.std.proofs.Common.{◌≡◌, [], ◌∷◌, ◌++◌, length, Some, None, refl}
use Rattle.std.specs.Prelude.{replicate}
use Rattle.lldp_pdu.specs.declared.fault.PduFault.TheVariants.{Truncated, NoChassis, ChassisLength, NoPort, PortLength, NoTtl, TtlLength, Repeated}
use Rattle.lldp_pdu.specs.Cut.{cut_within, cut}
use Rattle.lldp_pdu.specs.Lldpdu.{extent, ended_incomplete, ttl_of, msap_of, later_tlvs}
use Rattle.lldp_pdu.specs.WellFormed.{is_well_formed}
use Rattle.lldp_pdu.specs.Fault.{fault_of}
use Rattle.lldp_pdu.specs.Kept.{kept_of, discarded_of}
use Rattle.lldp_pdu.specs.Capabilities.{caps_of}
use Rattle.lldp_pdu.specs.ManagementAddress.{address_of}
use Rattle.lldp_pdu.specs.Draft.{put_fault, lldpdu_octets}
use Rattle.lldp_pdu.proofs.Vectors.Parts.{Gives, Tells, ShutsDown, tlv, begun, answers, given}
"""


def rows_of(kind: str) -> list[list[str]]:
    """Returns the rows of a kind, each as its fields after the kind."""
    rows = [line.split("\t") for line in ROWS.read_text().splitlines() if not line.startswith("#")]
    return [row[1:] for row in rows if row[0] == kind]


def listed(digits: str) -> str:
    """Returns octets (`-` for none) as a list term, long runs of one octet with `replicate`."""
    parts, single = [], ""
    for octet, run in groupby(bytes.fromhex(digits.strip("-"))):
        count = len(list(run))
        if count >= LONG_RUN:
            parts += [f"{single}replicate {count} 0x{octet:02x}"]
            single = ""
        else:
            single += f"0x{octet:02x} ∷ " * count
    return " ++ ".join([*parts, f"{single}[]"] if single or not parts else parts)


def chained(items: list[str]) -> str:
    return "".join(f"{item} ∷ " for item in items) + "[]"


def tlvs_of(fields: list[str]) -> str:
    pairs = [field.split(":")[:2] for field in fields]
    return chained([f"tlv {kind} ({listed(body)})" for kind, body in pairs])


def name_of(prefix: str, name: str) -> str:
    return f"{prefix}_" + re.sub(r"\W+", "_", name).strip("_")


def table_of(name: str, function: str, rows: list[tuple[str, str, str]]) -> str:
    """Returns a theorem `name`, which states the values of a function. A row has a name, an
    argument and the value."""
    lines = [f"({given}, {gives})  -- {row}" for row, given, gives in rows]
    return f"\n{name} : Gives {function}\n    (" + "\n    ∷ ".join(lines) + "\n    ∷ [])\n"


def faults_theorem() -> str:
    rows = [(row[0], listed(row[1]), f"Some {FAULTS[int(row[3]) - 1]}") for row in rows_of("examine")
            if row[2] == "fault"]
    return table_of("faults", "fault_of", rows) + f"unfolding {UNFOLDED}\nfaults = refl\n"


def told_theorem(row: list[str]) -> str:
    name, lldpdu, _, ttl, chassis, port, extent, discarded, unrecognized, *kept = row
    msap = f"(record {{ chassis = {listed(chassis)}; port = {listed(port)} }})"
    known = name_of("told", name)
    if ttl == "0":
        said = f"ShutsDown ({listed(lldpdu)}) {msap}"
    else:
        said = f"Tells ({listed(lldpdu)}) {msap} {ttl} {extent} ({tlvs_of(kept)}) {discarded} {unrecognized}"
    return f"\n{known} : {said}\nunfolding {UNFOLDED}\n{known} = {'(refl, refl, refl)' if ttl == '0' else '(refl, refl)'}\n"


def bodies_theorems() -> str:
    caps = [(name, listed(body), f"Some (record {{ available = {told[0]}; enabled = {told[1]} }})" if told else "None")
            for name, body, *told in rows_of("caps")]
    addresses = []
    for name, body, *told in rows_of("mgmt"):
        gives = "None"
        if told:
            family, address, numbering, interface, oid = told
            gives = (f"Some (record {{ family = {family}; address = {listed(address)}; numbering = {numbering}; "
                     f"interface = {interface}; oid = {listed(oid)} }})")
        addresses.append((name, listed(body), gives))
    return (table_of("capabilities", "caps_of", caps) + "capabilities = refl\n"
            + table_of("management_addresses", "address_of", addresses) + "management_addresses = refl\n")


def built_theorem(row: list[str]) -> str:
    name, ttl, chassis, port, length, lldpdu, *puts = row
    draft = f"(begun (record {{ chassis = {listed(chassis)}; port = {listed(port)} }}) {ttl}) ({tlvs_of(puts)})"
    wanted = chained([put.split(":")[2] for put in puts])
    octets = f"lldpdu_octets (given {draft})"
    built = f"{octets} ≡ {listed(lldpdu)}" if lldpdu != "-" else f"length ({octets}) ≡ {length}"
    known = name_of("built", name)
    return (f"\n{known} : (answers {draft} ≡ {wanted}) × ({built})\n"
            f"unfolding is_well_formed put_fault\n{known} = (refl, refl)\n")


def proofs() -> str:
    told = [told_theorem(row) for row in rows_of("examine") if row[2] == "told"]
    built = [built_theorem(row) for row in rows_of("build")]
    return HEAD + faults_theorem() + "".join(told) + bodies_theorems() + "".join(built)


if __name__ == "__main__":
    parser = argparse.ArgumentParser(description=__doc__, formatter_class=argparse.RawDescriptionHelpFormatter)
    parser.add_argument("file", nargs="?", metavar="FILE", type=pathlib.Path, default=FILE)
    parser.parse_args().file.write_text(proofs())
