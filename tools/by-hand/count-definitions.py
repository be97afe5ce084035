#!/usr/bin/env python3
"""Counts the lines of specs, without imports and comments, that the headline, the program and all public calls rest on.

Follows names from contracts on. Enums and structs of src, Rattle's library and what only laws rest on do not count."""
import argparse
import collections
import pathlib
import re

CRATES = pathlib.Path(__file__).resolve().parents[2] / "crates"
IMPORT = re.compile(r"(?m)^ *(?:ghost )?use Rattle\.(\S+?)(?:\.\{(.*?)\})?(?: as (\w+))?;?$")
BEGIN = re.compile(r"(?:abbrev |unfoldable )?(?:pub )?(?:(?:record|data) (\S+)|([^\s(]+) :)|  (\w+) :")
CONTRACT = r'(?ms)^ *pub (?:extern "C" )?fn %s\b[^{]*?^ *((?:requires|ensures) .*?)^ *[{}]'


def scope_of(text):
    uses = [(module.replace(".", "/"), name.partition(" as ")) for module, names, alias in IMPORT.findall(text)
            for name in (names or f" as {alias}").split(", ")]
    return {last or first: (file, first) for file, (first, _, last) in uses}


def named(text, scope):
    words = re.findall(r"(?<![\w.])([^\W\d][\w-]*)(?:\.(\w+))?", text)
    return [(scope[word][0], scope[word][1] or last) for word, last in words if word in scope]


def read(file):
    text = re.sub(r" *--.*", "", file.read_text()).replace("◌>>=◌", "do")
    lines, scope, owner = collections.defaultdict(list), scope_of(text), ""
    for line in filter(str.strip, re.sub(r"(?m)^(use|pub mod|infix\w*) .*", "", text).splitlines()):
        begin = BEGIN.match(line) or [None] * 4
        owner = begin[1] or begin[2] or owner
        lines[owner].append(line)
        scope[begin[3] or owner] = (str(file.relative_to(CRATES).with_suffix("")), owner)
    return lines, scope


def cited(function):
    return [name for file in CRATES.glob("*/src/**/*.rt") if "laws" not in str(file) for text in [file.read_text()]
            for contract in re.findall(CONTRACT % function, text) for name in named(contract, scope_of(text))]


def count(what, todo):
    found = collections.defaultdict(dict)
    for file, name in todo:  # which grows
        lines, scope = FILES.get(file, ({}, {}))
        name = scope.get(name, ("", ""))[1]
        if name in lines and name not in found[file]:
            found[file][name] = len(lines[name])
            todo += named("\n".join(lines[name]), scope)
    for file, names in sorted(found.items()):
        print(f"{sum(names.values()):5} {file}: {', '.join(names)}\n" * bool(names), end="")
    print(f"{sum(sum(names.values()) for names in found.values()):5} {what}\n")


argparse.ArgumentParser(description=__doc__).parse_args()
FILES = {str(file.relative_to(CRATES).with_suffix("")): read(file) for file in CRATES.glob("*/specs/**/*.antt")}
count("the headline", [("lldp_engine/specs/Headline", "PromisedStep")])
count("the program", cited("run_words"))
count("all public calls", cited(r"\w+"))
