#!/usr/bin/env python3
"""Checks docs/PROMISES.md against the repository; exit 1 where something does not hold.

- Every backticked file and edit exists. `CRATE/must-fail/X` is the edit crates/CRATE/must-fail/X.edit; other paths start at the root or at crates/.
- Every backticked name is defined: names before a file in that file, names with no file after them somewhere under crates/ or in a library.
- Each row of a table of clauses has five filled cells, its third cell only keys, two wrong programs, and an edit or the words 'no edit:'.
- The files of a key are just those that its names rest on: the definitions that they reach, name by name, through the specs/ folders.
- Each line of an edit is a comment, `file:`, `old:` or `new:`; an old text stands just once in its file, after the replacements before it, and the new
  one is another.

With --refused LOG it checks instead what `rt ci` said, by the file LOG that has it:

- Every edit of the tree, so every edit cited, was tried and refused.
- None was refused only because a proof cites a name that the edit took away, or only by a limit of the prover: neither shows anything of a fact. That an edit
  does not parse, or that a definition or a contract cannot be read with it, `rt ci` says itself: such an edit is bad, and not refused.

What it cannot see is whether the fact that fails is the one that the page cites the edit for. How many edits the page does not cite is printed, and no fault.
"""
import re
import sys
from pathlib import Path

ROOT = Path(__file__).resolve().parent.parent
CRATES = ROOT / 'crates'
PAGE = ROOT / 'docs' / 'PROMISES.md'
WORD = r"[\w'\-]"
faults = []


def fault(number, text):
    faults.append(f'{PAGE.relative_to(ROOT)}:{number}: {text}')


# ---- what `rt ci` said of the edits


def not_refused(said):
    """Why what was said of an edit shows nothing of a fact, or None where it does."""
    if said is None:
        return 'it was not tried'
    if not said.startswith('refused, as it must be'):
        return said[:200]
    if said.startswith('refused, as it must be (only '):
        return said.removeprefix('refused, as it must be ')[:200]
    return None


def check_refusals(log):
    said = dict(re.findall(r'^rt: must-fail (\w+/[^\s:]+)\.edit: (.*)', Path(log).read_text(errors='replace'), re.MULTILINE))
    edits = sorted(CRATES.glob('*/must-fail/*.edit'))
    cited = {file_of(token) for token in re.findall(r'`([^`]+)`', PAGE.read_text())}
    for edit in edits:
        reason = not_refused(said.get(f'{edit.parent.parent.name}/{edit.stem}'))
        if reason:
            faults.append(f'{edit.relative_to(ROOT)}: {reason}')
    if not edits:
        faults.append('crates: no edit')
    for line in faults:
        print(line)
    missing = sum(edit not in cited for edit in edits)
    print(f'wrong edits: {len(edits)}, {len(edits) - missing} of them cited in docs/PROMISES.md, {missing} not, {len(faults)} faults')


# ---- the texts of the edits


def check_edit(edit):
    """The faults of one edit's text: what `rt` would find after all crates are proved."""
    lines = [line for line in edit.read_text().splitlines() if not line.startswith('#')]
    if any(not re.match(r'(file|old|new):( |$)', line) for line in lines):
        return ['a line is no comment, `file:`, `old:` or `new:`']
    text, old = '', None
    for word, part in ((line.partition(':')[0], line.partition(':')[2][1:]) for line in lines):
        if word == 'file':
            source = edit.parent.parent / part
            text = source.read_text() if source.is_file() else ''
        elif word == 'old':
            old = part
            if text.count(old) != 1:
                return [f'not once in its file: {old}']
        elif part == old:
            return [f'the new text is the old one: {old}']
        else:
            text = text.replace(old, part)
    return []


def check_edits():
    for edit in sorted(CRATES.glob('*/must-fail/*.edit')):
        faults.extend(f'{edit.relative_to(ROOT)}: {text}' for text in check_edit(edit))


# ---- names, files and edits


def texts():
    """The text of each file under crates/ that may hold a name."""
    files = [f for part in ('src', 'specs', 'proofs') for f in CRATES.glob(f'*/{part}/**/*') if f.is_file()]
    return {f: in_one_line(f.read_text()) for f in files if f.suffix in ('.rt', '.antt')}


def in_one_line(source):
    """The text with each `use` item in one line."""
    return re.sub(r'^(?:ghost )?use [^\s{;]+\{[^}]*\}', lambda use: ' '.join(use[0].split()), source, flags=re.MULTILINE)


def defined_in_rt(source):
    """Functions, structs, enums and constants, and the labels of loops."""
    code = re.sub(r'//.*', '', source)
    return set(re.findall(r'\b(?:fn|struct|enum|const)\s+(\w+)', code)) | set(re.findall(r"'(\w+):\s*(?:loop|while|for)\b", code))


def defined_in_antt(source):
    """Records, data types and whatever has a line `NAME :` or `NAME NAME :`, at the margin or in a record, a data type or a module."""
    names, within = set(), False
    for line in source.splitlines():
        code = re.sub(r'(?:^|\s)--.*', '', line)
        words = re.sub(r'^(?:(?:abbrev|unfoldable|pub)\s+)*', '', code.strip())
        block = re.match(r'(?:record|data|module)\s+(\S+)', words)
        if words and not code.startswith(' '):
            within = block is not None
        typed = re.match(r'((?:[^\s(){}\[\]:=→|]+\s+)+):(?:\s|$)', words)
        if block:
            names.add(block[1])
        elif typed and (within or not code.startswith(' ')):
            names.update(typed[1].split())
    return names


def is_own(module):
    """Whether a module is of a crate of this repository."""
    root, _, rest = module.partition('.')
    return root == 'Rattle' and (CRATES / rest.partition('.')[0]).is_dir()


class Defined:
    """The names that each file defines, and those that some file takes from a library."""

    def __init__(self, sources):
        self.of = {f: (defined_in_rt if f.suffix == '.rt' else defined_in_antt)(source) for f, source in sources.items()}
        uses = [use for source in sources.values() for use in re.findall(r'^(?:ghost )?use ([\w.]+)\.\{(.*)\}', source, re.MULTILINE)]
        self.library = {name.strip() for module, names in uses if not is_own(module) for name in names.split(',')}

    def anywhere(self, name):
        return name in self.library or f'◌{name}◌' in self.library or any(name in names for names in self.of.values())


def file_of(token):
    """The file that a token names, or None where it names no file."""
    if re.fullmatch(r'\w+/must-fail/\w+', token):
        return CRATES / f'{token}.edit'
    if '/' in token or (ROOT / token).is_file():
        return next((base / token for base in (ROOT, CRATES) if (base / token).exists()), ROOT / token)
    return None


def check_tokens(number, text, defined):
    """Names wait for the next file of crates/ that may define them; those that none follows are looked for everywhere."""
    waiting = []
    for token in re.findall(r'`([^`]+)`', text):
        file = file_of(token)
        if file is None:
            waiting.append(token)
            continue
        if not file.exists():
            fault(number, f'there is no {token}')
        if file not in defined.of:
            continue
        for name in waiting:
            if name not in defined.of[file]:
                fault(number, f'{name} is not defined in {token}')
        waiting = []
    for name in waiting:
        if not defined.anywhere(name):
            fault(number, f'{name} is defined nowhere under crates/ nor taken from a library')


# ---- what a definition rests on


class Specs:
    """The definitions of the specs/ folders, each with the names in its text, resolved by its file's `use` lines."""

    def __init__(self, sources):
        self.text = {}  # (file, name) -> the definition's text; a constructor stands for its data type
        self.home = {}  # (file, constructor) -> (file, data type)
        self.used = {}  # file -> {name: file}
        self.alias = {}  # file -> {alias: file}
        for file, source in sources.items():
            if file.parent.name == 'specs' and file.name != 'Lib.antt':
                self.read(file.relative_to(CRATES).as_posix(), source)

    def read(self, file, source):
        self.used[file], self.alias[file] = {}, {}
        at = None
        for line in source.splitlines():
            use = re.match(r'use Rattle\.(\w+)\.specs\.(\w+)(?:\.\{(.*)\})?(?: as (\w+))?$', line)
            if use:
                target = f'{use[1]}/specs/{use[2]}.antt'
                self.used[file].update({name.strip(): target for name in (use[3] or '').split(',')})
                if use[4]:
                    self.alias[file][use[4]] = target
            if line.startswith(('use ', 'infix', '--')):
                at = None
                continue
            start = re.match(r'(?:abbrev |unfoldable )?pub (?:record |data )?(\S+)', line)
            if start:
                at = (file, start[1])
                self.text[at] = ''
            if at:
                self.text[at] += line.split('--')[0] + '\n'
                constructors = re.match(r"  (\w[\w'\- ]*?) :", line)
                if constructors and self.text[at].startswith('pub data'):
                    self.home.update({(file, name): at for name in constructors[1].split()})

    def defined(self, file, name):
        return next(((file, n) for n in (name, f'◌{name}◌') if (file, n) in self.text), self.home.get((file, name)))

    def names_in(self, key):
        file = key[0]
        for name in set(re.findall(f'{WORD}+', self.text[key])):
            for n in (name, f'◌{name}◌'):
                found = self.defined(file, n) or self.defined(self.used[file].get(n), n)
                if found:
                    yield found
        for alias, target in self.alias[file].items():
            for name in re.findall(rf'{alias}\.({WORD}+)', self.text[key]):
                found = self.defined(target, name)
                if found:
                    yield found

    def closure(self, names, listed):
        """The files of all definitions that these names reach. Of a name that several files define, those in the files listed are meant."""
        reached, todo = set(), []
        for name in names:
            keys = [key for key in self.text if key[1] == name]
            todo += [key for key in keys if key[0] in listed] or keys
        while todo:
            key = todo.pop()
            if key not in reached:
                reached.add(key)
                todo += self.names_in(key)
        return {file for file, _ in reached}


# ---- the page


def check_key(number, line, specs, keys):
    """A line `- **KEY** (roots): files`: the files, and those of the keys before it that it lists, are those of the roots' closure."""
    roots, files = line.split('):', 1)
    names = re.findall(r'`([^`]+)`', roots)
    listed = set(re.findall(r'`([^`]+)`', files))
    for key in re.findall(r'\*\*(\w+)\*\*', files):
        listed |= keys.get(key, set())
    keys[re.match(r'- \*\*(\w+)', line)[1]] = listed
    reached = specs.closure(names, listed)
    for file in sorted(reached - listed):
        fault(number, f'{", ".join(names)} rest on {file} too')
    for file in sorted(listed - reached):
        fault(number, f'{", ".join(names)} do not rest on {file}')


def check_row(number, cells, keys):
    if len(cells) != 5 or not all(cells):
        fault(number, f'{len(cells)} cells, {sum(map(bool, cells))} of them filled, where 5 are asked')
        return
    clause, _, believe, wrong, edit = cells
    for key in re.split(r'[,;] ', believe):
        if key not in keys:
            fault(number, f'"{key}" is no key')
    if len(wrong.split(';')) < 2:
        fault(number, f'fewer than two wrong programs for "{clause}"')
    if '/must-fail/' not in edit and not edit.startswith('no edit: '):
        fault(number, f'no edit for "{clause}"')


def check_page():
    sources = texts()
    defined, specs = Defined(sources), Specs(sources)
    lines = PAGE.read_text().splitlines()
    keys, rows, clauses = {}, 0, False
    for number, line in enumerate(lines, 1):
        if line.startswith('- **'):
            check_key(number, line, specs, keys)
        cells = [cell.strip() for cell in line.strip('|').split('|')] if line.startswith('|') else None
        for text in cells or line.split('):' if line.startswith('- **') else '\n'):
            check_tokens(number, text, defined)
        if not cells:
            clauses = False
        elif cells[0] == 'Clause':
            clauses = True
        elif clauses and not line.startswith('|---'):
            check_row(number, cells, keys)
            rows += 1
    if not rows:
        faults.append(f'{PAGE.relative_to(ROOT)}: no table of clauses')
    for line in faults:
        print(line)
    print(f'docs/PROMISES.md: {rows} clauses, {len(keys)} keys, {len(faults)} faults')


def main():
    if sys.argv[1:] and (sys.argv[1] != '--refused' or len(sys.argv) != 3):
        sys.exit('usage: promises_check.py [--refused LOG]')
    if sys.argv[1:]:
        check_refusals(sys.argv[2])
    else:
        check_edits()
        check_page()
    sys.exit(1 if faults else 0)


main()
