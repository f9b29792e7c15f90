#!/usr/bin/env python3
"""Count the definitions that a reader must believe, in reading order.

    python3 tools/trust.py

Starts from the statements below, follows what they use, and prints each file of
crates/*/specs with all its lines, those that are definitions (not blank, no comment,
no `use`) and their share of all. Files come behind those that they use. The modules
`declared` are made from the enums and structs of the Rattle code, and are listed by
crate.

Some files say of themselves that nothing in them is to be believed. Ends with 1 if
a statement uses such a file, or if the contract of a public function cites one, or
what a public trait or an impl of a trait promises.
"""

import re
import sys
from pathlib import Path

# What is promised: demand 3, as few pairs as can be, commas, both contexts, the two callee orders, open sheets,
# operators not chosen yet, one file for one tree, the order on files, columns, and the contracts of the functions of
# the boundary.
ROOTS = [
    'token_theorem/Statement',
    'token_fewest_rows/Statement',
    'token_plain/Commas',
    'token_plain/Contexts',
    'row_orders/Statement',
    'sheet_edit/Statement',
    'sheet_written/Statement',
    'sheet_carry/Statement',
    'file_save/Statement',
    'file_order/Statement',
    'file_columns_laws/Statement',
    'file_loader/Files',
    'file_save/Saves',
    'file_order/Orders',
    'file_columns/Rearranged',
    'row_walk/Walk',
    'sheet_carry/Carries',
    'row_open/Open',
    'row_open/Statement',
    'token_writer/Writes',
    'token_reader/Reading',
    'answers/Replies',
    'answers/Bindings',
]

# What the promises are checked against: not cited by them.
BESIDE = ['precedence/Reference', 'row_walk/Cases', 'row_orders/Cases', 'sheet_edit/Cases']

CRATES = Path(__file__).resolve().parent.parent / 'crates'
GHOST_USE = re.compile(r'ghost use Rattle\.(?!std\b)(\w+)\.specs\.(\w+)\.\{([^}]*)\}')
PUB_MOD = re.compile(r'^pub mod (\w+);', re.MULTILINE)
PUB_FN = re.compile(r'pub (?:extern "C" )?fn (\w+)(.*?)\n *\{\n', re.DOTALL)
ENSURES = re.compile(r'^ *ensures (.*)', re.MULTILINE)
# A public trait, or an impl of one: what it says stands in clauses of its methods and in ghost items.
TRAIT = re.compile(r'^((?:pub trait|impl\b[^\n]* for)\b[^\n{]*) \{\n(.*?)^\}', re.MULTILINE | re.DOTALL)
PROMISES = re.compile(r'^ *(?:ensures|ghost \w+ [=:]|ghost \w+:) (.*)', re.MULTILINE)
WORD = re.compile(r'[\w-]+')
USE = re.compile(r'use Rattle\.(?!std\b)(\w+)\.specs\.([\w.]+?)(?:\.\{| as |\s|$)')


def path(name):
    crate, module = name.split('/')
    return CRATES / crate / 'specs' / f'{module}.antt'


def used(name):
    """The files that a file uses, and the types that are made from code."""
    files, declared = [], set()
    for crate, module in USE.findall(path(name).read_text()):
        parts = module.split('.')
        if parts[0] == 'declared':
            declared.add(f'{crate}::' + '::'.join(p for p in parts[1:] if p != 'TheVariants'))
        elif f'{crate}/{parts[0]}' not in files:
            files.append(f'{crate}/{parts[0]}')
    return files, declared


def visit(name, order, declared):
    if name in order:
        return
    files, types = used(name)
    declared |= types
    for file in files:
        visit(file, order, declared)
    order.append(name)


def counts(name):
    lines = path(name).read_text().splitlines()
    kept = [line for line in lines if line.strip() and not line.lstrip().startswith(('--', 'use '))]
    return len(lines), len(kept)


def is_scaffold(name):
    return 'othing here is to be believed' in path(name).read_text().splitlines()[0]


def table(title, names):
    print(f'\n{title}\n')
    rows = [(*counts(name), path(name).relative_to(CRATES)) for name in names]
    lines, definitions = sum(row[0] for row in rows), sum(row[1] for row in rows)
    for all_lines, kept, file in rows:
        print(f'{all_lines:5} {kept:5} {100 * kept / definitions:5.1f}%  {file}')
    print(f'{lines:5} {definitions:5}         together')


def public_modules(crate):
    """The source files of a library that its users can name."""
    root = CRATES / crate / 'src' / 'lib.rt'
    if not root.exists():
        return []
    return [root] + [root.parent / f'{name}.rt' for name in PUB_MOD.findall(root.read_text())]


def cited():
    """Each public function, and each trait, with each file of definitions that its contract cites."""
    for crate in sorted(folder.name for folder in CRATES.iterdir()):
        for file in public_modules(crate):
            text = file.read_text()
            homes = {}
            for home, module, names in GHOST_USE.findall(text):
                homes.update((name.strip(), f'{home}/{module}') for name in names.split(','))
            promises = [(function, ENSURES.findall(head)) for function, head in PUB_FN.findall(text)]
            promises += [(name, PROMISES.findall(body)) for name, body in TRAIT.findall(text)]
            for function, clauses in promises:
                words = set(WORD.findall(' '.join(clauses)))
                for home in sorted({homes[word] for word in words if word in homes}):
                    yield f'{crate}::{function}', home


def main():
    order, declared = [], set()
    for root in ROOTS:
        visit(root, order, declared)
    print('lines, of them definitions, file')
    table('To be believed, in reading order:', [n for n in order if not is_scaffold(n)])
    scaffold = [n for n in order if is_scaffold(n)]
    if scaffold:
        table('Used, but nothing in them is to be believed:', scaffold)
    table('Checked against the promises, not cited by them:', BESIDE)
    every = sorted(str(file.relative_to(CRATES)) for file in CRATES.glob('*/specs/*.antt'))
    left = [f'{file.split("/")[0]}/{Path(file).stem}' for file in every if not file.endswith('Lib.antt')]
    table('Not used by the promises:', [n for n in left if n not in order and n not in BESIDE])
    print('\nTypes from the code: ' + ', '.join(sorted(declared)))
    wrong = [f'{function} cites {home}' for function, home in cited() if is_scaffold(home)]
    if wrong:
        print('\nPublic contracts that cite what is not to be believed: ' + ', '.join(wrong))
    return 1 if scaffold or wrong else 0


if __name__ == '__main__':
    sys.exit(main())
