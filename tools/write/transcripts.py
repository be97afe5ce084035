#!/usr/bin/env python3
"""Writes the transcripts of examples/ as theorems, which rt check proves by computation.

    python3 tools/write/transcripts.py [FILE]

One theorem states which options a transcript's arguments mean. Another one states its output, or
the lines of the output that pass its filter. Each row of receive-counters.rows becomes a theorem
too: it states the row's counters in `show statistics` after the transcript's input.

FILE is crates/lldpa/proofs/Transcripts.antt by default. A transcript of more than MOST_TICKS ticks
is left out, because for each moment the definitions look at all earlier moments.
"""
import argparse
import pathlib
import re
import sys

TOP = pathlib.Path(__file__).resolve().parents[2]
sys.path += [str(TOP / "tools" / "gate"), str(TOP / "tools" / "model")]
import model  # noqa: E402
from examples import ROWS, rows, transcripts  # noqa: E402

FILE = TOP / "crates/lldpa/proofs/Transcripts.antt"
MOST_TICKS = 60
WIDTH = 105  # columns of a line of terms, without the operators

HEAD = """\
-- The transcripts of examples/, computed from the definitions alone. tools/write/transcripts.py writes this file.
use Rattle.std.proofs.Common.{◌≡◌, ℕ, List, [], ◌∷◌, ◌++◌, true, false, Some, None, refl, ap, ◌∙◌, codes, Bor, arith, Bool, ◌||◌, nat_eq, map, filter, flat_map}
use Rattle.std.specs.Fmt.{digits}
use Rattle.std.specs.Prelude.{decimal}
use Rattle.std.specs.List.{starts_with, list_any}
use Rattle.hex.specs.Hex.{encode_with, decode_pairs}
use Rattle.clap.specs.Walk.{Text}
use Rattle.clap.specs.Simple.{matches_of}
use Rattle.clap.proofs.OnLiterals.{clap_on_literals}
use Rattle.lldp_pdu.specs.Cut.{cut_within, cut}
use Rattle.lldp_pdu.specs.Frame.{is_lldp_frame}
use Rattle.lldp_pdu.specs.Lldpdu.{extent, ended_incomplete, ttl_of, msap_of, later_tlvs}
use Rattle.lldp_pdu.specs.Fault.{fault_of}
use Rattle.lldp_pdu.specs.WellFormed.{is_well_formed}
use Rattle.lldp_pdu.specs.Kept.{kept_of, discarded_of}
use Rattle.lldp_table.specs.Events.{live, neighbors, events_of, too_many_left}
use Rattle.lldp_transmit.specs.Moments.{moment}
use Rattle.lldp_transmit.specs.Standing.{machine_of}
use Rattle.lldp_engine.specs.declared.agent.options.Role.TheVariants.{Station, Bridge, Router}
use Rattle.lldp_engine.specs.Options.{Options, fault_of as opening_fault}
use Rattle.lldp_engine.specs.Heard.{heard_of}
use Rattle.lldp_engine.specs.Counters.{counters_of}
use Rattle.lldp_engine.specs.Port.Past.{port_after}
use Rattle.lldp_engine.specs.Past.{Past, opened, agent_of}
use Rattle.lldp_engine.specs.Frames.{frame_of}
use Rattle.lldp_text.specs.Words.{words_from}
use Rattle.lldp_program.specs.Trace.Forms.{tick_form, frame_form, link_form, form_of, work_given}
use Rattle.lldp_program.specs.Trace.Lines.{lines_of, ended_lines, ended}
use Rattle.lldp_program.specs.Trace.Items.{items_of, items_of_lines, after_all, text_of_all, text}
use Rattle.lldp_program.specs.CommandLine.Usage.{Asks, program}
use Rattle.lldp_program.proofs.Runs.Items.{text_of_all-append}

-- the text of each line, read after all lines before it
abbrev texts_of : Past → List (List ℕ) → List (List ℕ)
texts_of past [] = []
texts_of past (line ∷ lines) =
    text_of_all past (items_of past line) ∷ texts_of (after_all past (items_of past line)) lines

-- the text of each line of an input
abbrev texts : Past → List ℕ → List (List ℕ)
texts past input = texts_of past (lines_of input)

-- the texts joined in order
abbrev in_order : List (List ℕ) → List ℕ
in_order [] = []
in_order (line ∷ lines) = line ++ in_order lines

joined_lines : (past : Past) (lines : List (List ℕ)) → text_of_all past (items_of_lines past lines) ≡ in_order (texts_of past lines)
joined_lines past [] = refl
joined_lines past (line ∷ lines) =
    text_of_all-append past (items_of past line) (items_of_lines (after_all past (items_of past line)) lines)
    ∙ ap (λ t. text_of_all past (items_of past line) ++ t) (joined_lines (after_all past (items_of past line)) lines)

-- the text of an input is the texts of its lines, joined in order
text_in_order : (past : Past) (input : List ℕ) → text past input ≡ in_order (texts past input)
text_in_order past input = joined_lines past (lines_of input)

-- true if a line contains this text
abbrev has : List ℕ → List ℕ → Bool
has sought [] = false
has sought (octet ∷ line) = starts_with nat_eq (octet ∷ line) sought || has sought line

-- the lines that contain one of these texts, or all lines if the list is empty
abbrev lines_with : List Text → List ℕ → List ℕ
lines_with [] written = written
lines_with (sought ∷ more) written =
    flat_map ended (filter (λ line. list_any (λ one. has one line) (sought ∷ more)) (ended_lines written))

-- The arguments ask for these options.
abbrev AsksFor : List Text → Options → Type 0
AsksFor words options = (roles : Bor (List (Bor Text))) → Asks (matches_of (program roles) words) options

-- The arguments ask for options without a fault. lines has a text for each line of the input: what
-- an agent with these options then writes, or of that the lines with a sought text, if any is sought.
record Shows (sought : List Text) (words : List Text) (input : List ℕ) (lines : List (List ℕ)) : Type 0 where
  options : Options
  asked : AsksFor words options
  sound : opening_fault options ≡ None
  written : map (lines_with sought) (texts (opened options) input) ≡ lines

-- `Shows` with all lines compared
abbrev Writes : List Text → List ℕ → List (List ℕ) → Type 0
Writes words input lines = Shows [] words input lines

-- one port, eth0, and otherwise the defaults of the program
abbrev usual : Options
usual =
    record {
      names = codes "eth0" ∷ [];
      mac = 2 ∷ 0 ∷ 0 ∷ 0 ∷ 0 ∷ 1 ∷ [];
      hostname = codes "localhost";
      management = None;
      role = Station;
      max_neighbors = 32;
      credit_max = 5;
      fast_init = 4;
      reinit = 2;
      receive_only = false;
    }

-- names all definitions that the computation of a transcript unfolds
computed : Unit {0}
unfolding digits encode_with decode_pairs
    cut_within cut is_lldp_frame extent ended_incomplete ttl_of msap_of later_tlvs fault_of is_well_formed
    kept_of discarded_of live neighbors events_of too_many_left moment machine_of heard_of counters_of port_after agent_of
    frame_of words_from tick_form frame_form link_form form_of work_given
computed = tt
"""

# the definitions for the theorems of the rows; the list of counters replaces `%s`
COUNTED = f"""
-- the counters that {ROWS.name} checks
abbrev counters : List Text
counters = %s

-- the lines of these counters with these values
abbrev valued : List Text → List ℕ → List ℕ
valued [] values = []
valued (counter ∷ more) [] = []
valued (counter ∷ more) (value ∷ values) = counter ++ decimal value ++ codes "\\n" ++ valued more values

-- the lines of the counters if `show statistics` follows the input of a transcript
abbrev counted : {{sought words : List Text}} {{input : List ℕ}} {{lines : List (List ℕ)}}
    → Shows sought words input lines → List ℕ
counted {{input = input}} shown =
    lines_with counters (text (opened shown.options) (input ++ codes "show statistics\\n"))
"""

def octets(values):
    return "".join(f"{value} ∷ " for value in values) + "[]"


def codes(line):
    """Returns a line as a term: printable octets and LF in quotes, other octets as numbers."""
    parts = []
    for part in re.findall(rb"[ -~\n]+|[^ -~\n]+", line):
        quoted = part.decode("latin-1").replace("\\", "\\\\").replace('"', '\\"').replace("\n", "\\n")
        parts.append(f'codes "{quoted}"' if re.match(rb"[ -~\n]", part) else f"({octets(part)})")
    return " ++ ".join(parts)


def joined(lines):
    return packed(" ++ ", map(codes, lines)) or "[]"


def packed(between, terms):
    """Returns the terms with an operator between them, as many on each line as fit."""
    rows = []
    for term in terms:
        if rows and "\n" not in rows[-1] + term and len(rows[-1]) + len(term) < WIDTH:
            rows[-1] += between + term
        else:
            rows.append(term)
    return f"\n   {between}".join(rows)


# How the fields of options are written, except those with numbers.
FIELDS = {
    "mac": lambda value: f"mac = {octets(bytes.fromhex(value.replace(':', '')))}",
    "hostname": lambda value: f"hostname = {codes(value.encode())}",
    "management": lambda value: f"management = Some ({octets(value.split('.'))})",
    "role": lambda value: f"role = {value.capitalize()}",
    "receive_only": lambda value: "receive_only = true",
}


def options(words):
    """Returns the options as a term, and the parts of the --management address or None."""
    given, names = model.read_words(words)
    given.pop("connections", None)  # no option of an agent
    fields = [FIELDS[name](value) if name in FIELDS
              else f"{name.removeprefix('tx_').removesuffix('_delay')} = {value}" for name, value in given.items()]
    if names != ["eth0"]:
        fields.append(f"names = {listed(name.encode() for name in names)}")
    management = given["management"].split(".") if "management" in given else None
    return f"record usual {{ {'; '.join(fields)} }}" if fields else "usual", management


def listed(texts):
    return "".join(codes(text) + " ∷ " for text in texts) + "[]"


def asked(name, words):
    """Returns the theorem that states the options that these arguments mean."""
    given, management = options(words)
    dotted = "refl"
    if management:
        fields = "".join(f"{name} = {value}; " for name, value in zip("abcd", management))
        fit = ", ".join(["omega arith"] * 4)
        dotted = f"({octets(management)}, refl, record {{ {fields}fit = ({fit}); value = refl; spelled = refl }})"
    only = "--receive-only" in words
    read = ["names = refl", "mac = record { long = refl; colons = refl; digits = refl }", "hostname = refl",
            f"management = {dotted}", "role = refl", "max_neighbors = refl", "credit_max = refl", "fast_init = refl",
            "reinit = refl", f"receives = λ e. {'refl' if only else 'cc'}", f"sends = λ e. {'cc' if only else 'refl'}"]
    return f"""
{name} : AsksFor {list_of_words(words)}
    {given if given == "usual" else f"({given})"}
unfolding clap_on_literals decode_pairs digits
{name} roles = record {{ {"; ".join(read)} }}
"""


def list_of_words(words):
    return f"({listed([b'lldpa', *(word.encode() for word in words)])})"


def theorem(name, words, sought, trace, steps, asks):
    """Returns a transcript's theorem and its proof; `asks` names the theorem of its arguments."""
    if isinstance(steps, str):
        sys.exit(f"{name}: {steps}")
    lines = re.findall(rb"[^\n]*\n|[^\n]+", trace)
    texts = [f"({joined(written)})" if len(written) > 1 else joined(written) for _, written in steps]
    stated = f"Shows ({listed(text.encode() for text in sought)})" if sought else "Writes"
    return f"""
{name} : {stated}
    {list_of_words(words)}
    ({joined(lines)})
    ({packed(" ∷ ", [*texts, "[]"])})
unfolding computed
{name} = record {{ options = {options(words)[0]}; asked = {asks}; sound = refl; written = refl }}
"""


def theorems(shown):
    """Yields each transcript's theorem, and before it one for its arguments if they are new."""
    names = {}
    for name, words, sought, trace, steps in shown:
        name = name.replace("-", "_")
        if tuple(words) not in names:
            names[tuple(words)] = f"words_of_{name}"
            yield asked(names[tuple(words)], words)
        yield theorem(name, words, sought, trace, steps, names[tuple(words)])


def theorems_of_rows():
    """Yields the definitions of counters, and then the theorem of each row."""
    table = list(rows())
    yield COUNTED % listed(f"lldp.eth0.{counter}=".encode() for counter, _ in table[0][1])
    for name, values, found in table:
        if isinstance(found, str):
            sys.exit(f"{name} in {ROWS.name}: {found}")
        if ticks(found[3]) <= MOST_TICKS:
            name = name.replace("-", "_")
            yield f"""
counters_of_{name} : counted {name} ≡ valued counters ({octets(value for _, value in values)})
unfolding computed {name}
counters_of_{name} = refl
"""


def ticks(trace):
    """Returns how many ticks a trace has. The program refuses a line of more than 65,535."""
    numbers = [int(n or 1) for n in re.findall(rb"^tick *(\d*)$", trace, re.M)]
    return sum(n for n in numbers if n <= 65535)


if __name__ == "__main__":
    parser = argparse.ArgumentParser(description=__doc__, formatter_class=argparse.RawDescriptionHelpFormatter)
    parser.add_argument("file", nargs="?", metavar="FILE", type=pathlib.Path, default=FILE)
    file = parser.parse_args().file
    shown = HEAD + "".join(theorems(one for one in transcripts() if ticks(one[3]) <= MOST_TICKS))
    shown += "".join(theorems_of_rows())
    file.write_text(shown)
