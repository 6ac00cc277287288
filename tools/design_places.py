#!/usr/bin/env python3
"""Counts, in crates/*/src, the places of the forms that docs/DESIGN-PASS.md speaks of, one line for each form; with -v the places themselves.
The page says which of them are kept, and why. Run it at the top of a checkout."""
import glob
import re
import sys

VERBOSE = "-v" in sys.argv[1:]
FILES = {path: open(path, encoding="utf-8").read() for path in sorted(glob.glob("crates/*/src/**/*.rt", recursive=True))}


def code(text):
    """The lines without their comments and ghost imports."""
    return [re.sub(r"//.*", "", line) if not line.startswith("ghost use") else "" for line in text.split("\n")]


LINES = {path: code(text) for path, text in FILES.items()}


def lines(pattern):
    found = re.compile(pattern)
    return [f"{path}:{number}: {line.strip()}" for path, text in LINES.items() for number, line in enumerate(text, 1) if found.search(line)]


def signatures():
    """Each function: its file, its name, its parameters as (name, type)."""
    for path, text in LINES.items():
        for match in re.finditer(r"\bfn ([a-z0-9_]+)(?:<[^(]*>)?\(([^{]*?)\)\s*(?:->|\n|\{| *requires| *ensures)", "\n".join(text), re.S):
            parameters = [tuple(part.strip().split(":", 1)) for part in re.split(r",(?![^<\[]*[>\]])", match[2]) if ":" in part]
            yield path, match[1], [(name.strip(), kind.strip()) for name, kind in parameters]


def together(*names):
    return [f"{path}: {function}" for path, function, parameters in signatures() if set(names) <= {name for name, _ in parameters}]


def in_several_crates():
    homes = {}
    for path, function, _ in signatures():
        homes.setdefault(function, set()).add(path.split("/")[1])
    return [f"{function}: {', '.join(sorted(crates))}" for function, crates in sorted(homes.items()) if len(crates) > 1 and function != "main"]


def tell(point, what, places):
    print(f"{point:>3} {len(places):4} {what}")
    if VERBOSE:
        for place in places:
            print(f"         {place}")


tell(1, "own enums", lines(r"^(pub )?enum "))
tell(1, "functions that answer a number for a refusal or a kind: -> u8", lines(r"-> u8\b"))
tell(1, "constants that number the cases of an answer", lines(r"const (STILL|CHANGED|BROKEN|CROSSED|DIES|LIVES)\b"))
tell(1, "fields that say whether the others of their struct count", lines(r"^\s+(pub )?(clash|whole|bad|opened|dead|live): bool,"))
tell(1, "fields that hold the number of a refusal, 0 for none", lines(r"^\s+(pub )?(number|refused): u8,"))
tell(2, "names of functions that stand in several crates", in_several_crates())
tell(2, "limits 256, 32 and 1024 written out in a function", lines(r"slots: (256|SLOTS),"))
tell(3, "while and loop", lines(r"^\s*(while|loop)\b|: loop \{"))
tell(3, "for over the indices of a slice", lines(r"for \w+ in 0\.\.\w+(\.\w+)*\.len\(\)"))
tell(4, "conversions by a function of one's own", lines(r"^\s*(pub )?fn (wide|wide16|bits_of|number_of|one|narrow|bound|byte|short|number|word|bare|height|told)\(\w+: (u8|u16|u32|usize|bool|Verdict|Answer)\)"))
tell(4, "minimum, maximum and bounded difference by hand", lines(r"^\s*(pub )?fn (less|less16|greater|lesser|smaller|plus)\("))
tell(5, "functions over lowers, uppers, n", together("lowers", "uppers", "n"))
tell(5, "functions over masks, cells, trail", together("masks", "cells", "trail"))
tell(5, "functions of six parameters and more", [f"{p}: {f} ({len(a)})" for p, f, a in signatures() if len(a) >= 6])
tell(6, "arrays of fixed size with their length beside or packed rows", lines(r"\[\w+; ?\w+\]"))
tell(7, "a switch on the kind of bound: lower: bool", [f"{p}: {f}" for p, f, a in signatures() if ("lower", "bool") in a])
tell(7, "matches on a kind byte", lines(r"match (kind|drawn|first)\b"))
