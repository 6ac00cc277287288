#!/usr/bin/env python3
"""Brings the names of the repository's own definitions and lemmas to the library's spelling: words in snake case, types in camel case.

    python3 tools/respell.py [FOLDER]

FOLDER (.) is the top of a repository that port.py has just turned. `testBit-lt` becomes `test_bit_lt`, `Mask·Subset` becomes `MaskSubset`. The names that
specs/ and proofs/ of the crates declare and bind are changed; in the clauses and the comments of src/, in the wrong edits, and in the pages, where they
stand in backticks. Names of the library and those that Rattle makes keep theirs. It stops where two names would fall together, and changes nothing where
everything is in the new spelling already.
"""

import glob
import os
import re
import sys

DECLARED = re.compile(r"^(?:abbrev |unfoldable |pub )*(?:record |data |ruleset )?([^\s(){}:,;=]+)(?: [^:\n]*)? :( .*)?$", re.M)
MEMBER = re.compile(r"^  (?:pub )?([^\s(){}:,;=]+) :( .*)?$", re.M)
USE = re.compile(r"^(?:ghost )?use ([^\s{;]+?)\.\{([^}]*)\}", re.M)
WORD = re.compile(r"[^\s(){}\[\].,;:@λ`\"◌|]+")
CAMEL = re.compile(r"[a-z0-9][A-Z]")
KEPT = {"Option·elim", "invariant-loop", "decreases-loop", "returns-2"}
# An operator and a lemma, a definition and a variable, which no file has together.
SAME = {"or_else", "rows_in"}
# Names whose new spelling another name has: the fields of records, and one definition.
CHOSEN = {
    "cells-size": "cells_length",
    "masks-in": "masks_inside",
    "masks-offset": "masks_offset_is",
    "rows-offset": "rows_offset_is",
    "slotIn": "call_slot",
    "valueIn": "call_value",
    "start-lowers": "lowers_start",
    "start-uppers": "uppers_start",
    "opens-live": "opens_live_lem",
    "saidIn": "said_inside",
}


def read(path):
    with open(path, encoding="utf-8") as file:
        return file.read()


def new_name(name):
    if name[0].isupper():
        name = name.replace("·", "")
        return name.replace("-", "_") if not CAMEL.search(name) else "_".join(p if p[:1].isupper() else snake(p) for p in name.split("-"))
    return snake(name.replace("-", "_"))


def snake(name):
    return re.sub(r"([a-z0-9])([A-Z])", lambda m: m[1] + "_" + m[2].lower(), name)


def crates(top):
    lines = [line.split("#")[0].strip() for line in read(os.path.join(top, "crates.txt")).split("\n")]
    return {line.split(":")[0].split()[0] for line in lines if line}


def files(top, *shapes):
    return sorted(path for shape in shapes for path in glob.glob(os.path.join(top, shape), recursive=True) if "/out/" not in path)


def without_comments(text):
    return re.sub(r"(?m)(^|\s)--( .*)?$", "", text)


def table(top):
    own = crates(top)
    texts = {path: without_comments(read(path)) for path in files(top, "crates/*/specs/**/*.antt", "crates/*/proofs/**/*.antt")}
    texts.update({path: re.sub(r"(?m)//.*$", "", read(path)) for path in files(top, "crates/*/src/**/*.rt")})
    library, declared, words = set(), set(), set()
    for path, text in texts.items():
        for match in USE.finditer(text):
            root = match[1].split(".")
            if not (root[0] == "Rattle" and root[1] in own):
                library.update(name.strip().split(" as ")[0].replace("◌", "") for name in match[2].split(","))
        if path.endswith(".rt"):
            continue
        words.update(re.findall(r"(?<![\w.·'-])[^\s(){}\[\].,;:@λ`\"◌|]+(?!\.\w)", text))
        walked = "/proofs/" in path and "/" in path.split("/proofs/")[1]
        if not walked:
            declared.update(word for word in WORD.findall(text) if re.search(r"[^\W\d]", word) and "-" in word[1:])
        for match in [*DECLARED.finditer(text), *MEMBER.finditer(text)]:
            if not (walked and ((match[2] or "").startswith(" tie.") or match[1].endswith("-spec"))):
                declared.update(re.split("◌", match[1]))
    camel = {word for word in words if CAMEL.search(word) and not word[0].isupper() and "-" not in word and re.fullmatch(r"[\w'′]+", word)}
    names = {n for n in declared | camel if n and re.fullmatch(r"[\w'′·≤<≡₀₁₂₃₄₅₆₇₈₉⁰¹²³-]*", n) and n not in library and n not in KEPT}
    names = {name for name in names if len(name) > 1 and new_name(name) != name}
    change, taken, fell = {}, {}, []
    # definitions first: a lemma that would have a definition's name ends in _lem
    for name in sorted(names, key=lambda name: ("-" in name, name)):
        new = CHOSEN.get(name, new_name(name))
        if "-" in name and (new in taken or new in words | library):
            new += "_lem"
        if new in taken or (new in words | library and new not in SAME):
            fell.append(f"{name} and {taken.get(new, new)}")
        change[name] = taken[new] = new
    return change, fell


def respelled(text, change, fields=None):
    """Where fields are given, a name behind a dot is one of theirs or Rattle's own."""

    def turn(match):
        made = fields is not None and text[match.start() - 1 : match.start()] == "." and match[0] not in fields and not CAMEL.search(match[0])
        return match[0] if made else change.get(match[0], match[0])

    return WORD.sub(turn, text)


def fields_of(top):
    found = set()
    for path in files(top, "crates/*/specs/**/*.antt", "crates/*/proofs/**/*.antt"):
        for record in re.finditer(r"^(?:pub )?record [^\n]*where\n((?:(?:  .*)?\n)*)", without_comments(read(path)), re.M):
            found.update(match[1] for match in MEMBER.finditer(record[1]))
    return found


def in_backticks(text, change):
    return re.sub(r"`[^`\n]+`", lambda match: respelled(match[0], change), text)


def antt(text, change, fields=None):
    lines = []
    for line in text.split("\n"):
        at = re.search(r"(^|\s)--( |$)", line)
        code, comment = (line, "") if not at else (line[: at.start()], line[at.start() :])
        lines.append(respelled(code, change, fields) + comments(comment, change))
    return "\n".join(lines)


def comments(text, change):
    """Camel case anywhere, the other names in backticks or at the head of a line of a file's list of names."""
    camel = {name: new for name, new in change.items() if CAMEL.search(name) or "·" in name}
    text = re.sub(r"^(\s*-- {3})(\S.*?)( {3}|$)", lambda m: m[1] + respelled(m[2], change) + m[3], text)
    return respelled(in_backticks(text, change), camel)


def rust(text, change):
    lines = []
    for line in text.split("\n"):
        at = line.find("//")
        code, comment = (line, "") if at < 0 else (line[:at], line[at:])
        lines.append(respelled(code, change) + comments(comment, change))
    return "\n".join(lines)


def edit(text, change):
    lines = []
    for line in text.split("\n"):
        key = re.match(r"(old|new): ?", line)
        lines.append(key[0] + respelled(line[key.end() :], change) if key else comments(line, change))
    return "\n".join(lines)


def main():
    top = sys.argv[1] if len(sys.argv) > 1 else "."
    change, fell = table(top)
    if fell:
        sys.exit("respell: these names would fall together: " + ", ".join(fell))
    fields = fields_of(top)
    kinds = [
        (antt, ["crates/*/specs/**/*.antt", "crates/*/proofs/*.antt"]),
        (lambda text, change: antt(text, change, fields), ["crates/*/proofs/*/**/*.antt"]),
        (rust, ["crates/*/src/**/*.rt"]),
        (edit, ["crates/*/must-fail/*.edit"]),
        (in_backticks, ["*.md", "docs/**/*.md", "crates/*/*.md"]),
    ]
    changed = 0
    for turn, shapes in kinds:
        for path in files(top, *shapes):
            text = read(path)
            new = turn(text, change)
            if new != text:
                changed += 1
                with open(path, "w", encoding="utf-8") as file:
                    file.write(new)
    print(f"respell: {len(change)} names, {changed} files")


if __name__ == "__main__":
    main()
