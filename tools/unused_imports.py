#!/usr/bin/env python3
"""Names that a `use` or `ghost use` line brings and nothing below it uses, in all files of crates/; exit 1 where there are any.

usage: tools/unused_imports.py [CRATE ..]
It reads words and no grammar: a name counts as used wherever it stands in the file but in comments and on `use` lines, an operator wherever its parts do.
A name that is brought under another one (`as`) is not looked at. It proves nothing and reads a .rt file too; in a proved crate `rt tidy` drops what the check
itself finds unused in the .antt files.
"""
import re
import sys
from pathlib import Path

CRATES = Path(__file__).resolve().parent.parent / 'crates'
WORD = r"[\w'\-≡≢≤<>∣⁺⇒]"


def unused(path):
    """The module of each `use` line, and those of its names that are not used."""
    text = path.read_text()
    comment = r'(^|\s)--.*' if path.suffix == '.antt' else r'(^|\s)//.*'
    uses = re.compile(r'^(?:ghost )?use ([^\s{;]+)\.\{([^}]*)\};?', re.M)
    body = re.sub(comment, '', re.sub(r'^(?:ghost )?use .*', '', uses.sub('', text), flags=re.M), flags=re.M)

    def used(name):
        if '◌' in name:
            return all(part in body for part in name.split('◌') if part)
        return re.search(rf'(?<!{WORD}){re.escape(name)}(?!{WORD})', body)

    for module, names in uses.findall(text):
        listed = [name.strip() for name in names.split(',')]
        left = [name for name in listed if name and ' as ' not in name and not used(name)]
        if left:
            yield module, left


def main():
    crates = sys.argv[1:] or sorted(f.name for f in CRATES.iterdir())
    found = 0
    for crate in crates:
        files = (f for part in ('src', 'specs', 'proofs') for f in (CRATES / crate / part).rglob('*'))
        for path in sorted(f for f in files if f.suffix in ('.antt', '.rt')):
            for module, names in unused(path):
                print(f'{path.relative_to(CRATES)}: {module}: {", ".join(names)}')
                found += 1
    sys.exit(1 if found else 0)


main()
