#!/usr/bin/env python3
"""Checks that closing declares no array but the two that hold the table; exit 1 where it does.

The table is declared by `close_bytes` (the exported close), by `book_rises` (settle and sessions) and by `canonical`. The code looked at is that of these
crates and of every crate that they stand on, by crates.txt. An array is whatever stands in brackets and is no index, no type of a slice and no attribute: a type
`[T; N]`, also behind a name or a `&`; a value `[x; N]` or `[x, y]`; a string. The only other room for a copy of a line would be the heap. Who takes some of that
has an allocator, which these crates may not name, and passes it to a type that keeps it there, of which they may name none either.
What the search takes for an array, or for the heap, is tried on some lines first.
"""
import re
import sys
from pathlib import Path

ROOT = Path(__file__).resolve().parent.parent
TABLE = '[0u16; 8224]'
# the same, where the source has a name for its size
NAMED, NAME = '[0u16; TABLE]', 'const TABLE: usize = 8224;'
ROOTS = ['close_bytes', 'book_rises', 'canonical']
# what closing is made of: none of these may drop out of sight
SEEN = ['closing', 'starting', 'filling', 'bounds', 'lines', 'line_tests', 'bands', 'lanes', 'columns', 'column_rules', 'stores']

ARRAYS = {
    'let mut line = [0u16; 257];': ['[0u16; 257]'],
    'let a = [x, y];': ['[x, y]'],
    'f(&[x], &[MAX], &mut [0u16; 9])': ['[x]', '[MAX]', '[0u16; 9]'],
    'const WIDE: [usize; 2] = [1, 2];': ['[usize; 2]', '[1, 2]'],
    'pub type Line = [u16; 257];': ['[u16; 257]'],
    'struct S { line: [u16; 257] }': ['[u16; 257]'],
    'fn f(s: &[u16; 4]) -> [u16; 4]': ['[u16; 4]', '[u16; 4]'],
    'return [s[0], t[1]];': ['[s[0], t[1]]'],
    'g(b"line")': ['"line"'],
    'fn f(alloc: Global, line: Vec<u16>)': ['alloc', 'Global', 'Vec'],
    'let line = vec![in alloc; 0u16; 257]?;': ['vec', '[in alloc; 0u16; 257]', 'alloc'],
}
NO_ARRAYS = [
    'fn f(s: &[u16], t: &mut [Row]) -> usize // [0; 3]',
    's[p + 1] = t[u[0]]; f(&mut s[..m], &t[1..])',
    '#![tactic(auto)]',
    '#[unsafe(no_mangle)]',
    'ghost use Rattle.std.specs.Prelude.{[], ◌≡◌};',
    'requires { (s.old ≡ []) × P { x = [] } }\n    ensures kept { s.new ≡ [] }\n{',
]
# what lies on the heap, and what a value there is made with
HEAP = r'\b(?:alloc|\w*Alloc\w*|Global|Heap|Vec|VecDeque|Box|Rc|Arc|String|\w*Map|\w*Set|vec|format)\b'


def end_of(text, at):
    """Where the bracket that opens at a place is closed."""
    depth = 0
    for end in range(at, len(text)):
        depth += 1 if text[end] in '[{' else -1 if text[end] in ']}' else 0
        if depth == 0:
            return end + 1
    return len(text)


def code(text):
    """The text with blanks in place of comments, ghost imports and clauses."""
    blank = lambda part: re.sub(r'[^\n]', ' ', part)
    text = re.sub(r'//[^\n]*|^ghost use [^;]*;', lambda m: blank(m.group()), text, flags=re.MULTILINE)
    for clause in re.finditer(r'\b(?:requires|ensures)\b\*?(?: \w+)? \{', text):
        end = end_of(text, clause.end() - 1)
        text = text[: clause.start()] + blank(text[clause.start() : end]) + text[end:]
    return text


def arrays(text):
    """The arrays in a source text, each with its line."""
    text = code(text)
    found = [(m.start(), m.group()) for m in re.finditer(rf'"(?:\\.|[^"\\])*"|{HEAP}', text)]
    at = 0
    while (at := text.find('[', at)) >= 0:
        end = end_of(text, at)
        before, inside = text[:at], text[at + 1 : end - 1]
        index = re.search(r'[\w)\]?]$', before)
        slice_type = re.search(r'&(\'\w+ )?(mut )?$', before) and re.fullmatch(r'bool|[iuf]\d+|[iu]size|[A-Z]+[a-z]\w*', inside)
        if not index and not slice_type and not before.endswith(('#', '#!')):
            found.append((at, text[at:end]))
            at = end
        else:
            at += 1
    return [(text.count('\n', 0, place) + 1, array) for place, array in sorted(found)]


def below(crate, stands_on):
    """A crate and all that it stands on."""
    reached, waiting = set(), [crate]
    while waiting:
        name = waiting.pop()
        if name in stands_on and name not in reached:
            reached.add(name)
            waiting += stands_on[name]
    return reached


def main():
    for text, expected in [*ARRAYS.items(), *((text, []) for text in NO_ARRAYS)]:
        assert [array for _, array in arrays(text)] == expected, text
    lines = [line.partition(':') for line in (ROOT / 'crates.txt').read_text().splitlines() if line and not line.startswith('#')]
    stands_on = {name.split()[0]: names.split() for name, _, names in lines}
    faults, sources = [], 0
    crates = set()
    for root in ROOTS:
        reached = below(root, stands_on)
        faults += [f'{root} does not stand on {name}: is the list in tools/closing_arrays.py an old one?' for name in SEEN if name not in reached]
        crates |= reached
    for crate in sorted(crates):
        declared = 0
        for source in sorted((ROOT / 'crates' / crate / 'src').rglob('*.rt')):
            sources += 1
            text = source.read_text()
            for number, array in arrays(text):
                if crate in ROOTS and (array == TABLE or array == NAMED and NAME in text.splitlines()):
                    declared += 1
                else:
                    faults.append(f'{source.relative_to(ROOT)}:{number}: an array that does not hold the table, or room on the heap: {array}')
        if crate in ROOTS and declared != 2:
            faults.append(f'{crate} declares {declared} arrays {TABLE}, and the table is held by 2')
    for fault in faults:
        print(fault)
    print(f'closing: {len(crates)} crates, {sources} sources, {len(faults)} faults')
    sys.exit(1 if faults else 0)


main()
