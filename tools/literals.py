#!/usr/bin/env python3
"""Count the digits in the Rattle crates that should have names.

    python3 tools/literals.py              a table by crate and kind, and the total
    python3 tools/literals.py --list [KIND]    each place that counts
    python3 tools/literals.py --allowed [KIND] each place that does not, with the reason

Looks at src/, specs/ and proofs/ of each crate, comments left out. KINDS says what is
looked for, ALLOWED which of it may stay as digits, and why. Fails if more than LIMIT
are left, or if the specs and the code of `tree` give a name different numbers.
"""

import re
import sys
from collections import Counter
from fnmatch import fnmatch
from pathlib import Path

CRATES = Path(__file__).resolve().parent.parent / 'crates'

# The most that may be left.
LIMIT = 0


def number(*values):
    """A number as it stands in .rt and .antt, and not as a part of a name or a projection."""
    digits = '|'.join(re.sub(r'(?<=\d)(?=(\d{3})+$)', '_?', str(value)) for value in values)
    return rf"(?<![\w.'′₀-])(?:{digits})(?![\w'′-]|\.\d)"


def of(value):
    """A number that multiplies or divides, or that a list is cut by or repeated with."""
    n = number(value)
    return rf'{n} \*|\* {n}|[/%] {n}|\+ {n}|\b(?:take|drop|times|split_at|row_line|row_most|below_take \d+) {n}|\bput_row\(.*, {n},'


def last(names, before, values):
    """The last argument of a function, behind so many others: in antt and in Rattle."""
    argument = r'(?:[\w.·′₀]+|\((?:[^()]|\([^()]*\))*\))'
    antt = rf'\b(?:{names})' + rf' {argument}' * before + f' ({number(*values)})'
    rattle = rf'\b(?:{names})\((?:[^()]|\([^()]*\))*, ({number(*values)})\)'
    return f'{antt}|{rattle}'


ANYWHERE = '*'
TOKENS = 'token_writer/* token_reader/* token_follow/*'

# The kind, what its digits stand for, in which crates, and how they are found.
KINDS = [
    ('cells', 'cells of a row', ANYWHERE, of(5)),
    ('a node', 'cells of a node, tokens that are written for one', ANYWHERE, of(6)),
    ('nodes', 'the most nodes of a table', ANYWHERE, number(4096, 4097)),
    ('tokens', 'the most tokens of a list, cells of the largest table, and of the nodes that tokens make', ANYWHERE, number(24576, 24577, 147456)),
    ('levels', 'the most levels of a tree', ANYWHERE, number(128, 129)),
    ('bytes', 'the most bytes of a file', ANYWHERE, number(65536, 65537)),
    ('last', 'the last code, and the end of a list', ANYWHERE, number(45, 46, 47)),
    (
        'place',
        'where a cell stands in a node',
        ANYWHERE,
        '|'.join([
            last('cell_at', 2, range(6)),
            last('operand_at', 3, [3, 4]),
            last('cell|operand_at|operand_number', 9, range(6)),
            rf'\[\w+ \+ {number(1, 2, 3, 4, 5)}\]',
            rf'\(?k ≡ {number(3, 4)}\)',
        ]),
    ),
    ('code', 'codes of tokens and levels, where tokens are read and written', TOKENS, number(*range(13, 45))),
    ('code', 'codes that a match in the code tells apart', 'token_writer/src/* token_reader/src/* token_follow/src/*', rf'^\s*{number(*range(13))}(?:\.\.=\d+)?(?: \| \d+)* =>'),
]

# The kind, the files, the text that the digits stand in (the whole line if none is given), and why they stay.
ALLOWED = [
    ('*', '*', r'^\s*(pub )?const \w+: \w+ = [\d_]+;', 'the definition of the name, in the code'),
    ('*', '*/specs/*', r'^(node_cells|row_cells|token_cells|tokens_per_node|most_\w+|last_code|\w*end\w*|opening|task_step|\w+_column) = \d+', 'the definition of the name, in the specs'),
    ('*', '*/specs/Cases.antt', '', 'an example'),
    ('last', '*/specs/Forms.antt', r'^type_\w+ = \d+', 'the table of forms'),
    ('last', 'tree/specs/FormNumbers.antt tree/src/form.rt', r'\bType\w+ = \d+|\d+ => Ok\(Form::Type\w+\)', 'the table of forms'),
    ('last', '*/specs/Tokens.antt', r'^code \w+ = \d+', 'the table of codes'),
    ('*', '*/proofs/*', r'^(expressions|types) = [\d ∷]+', 'forms, in the proof of a table over them'),
    ('last', '*/proofs/*', r'eqb f 10\)\) \([\d ∷]+|suits f d.* \([\d ∷]+', 'forms, in the proof of a table over them'),
    ('code', '*', r'[Rr]efuse[ds]?[ (]\d+', 'the number of a refusal'),
    ('code', '*/proofs/*', r'pick(_true|_false)? (\(refusal.*\) )?1[23] |\) 13 0', 'the number of a refusal'),
    ('code', '*/proofs/*', r'\(Err NotPlain\) \d+', 'the number of a refusal'),
    ('levels', 'tree/src/refusal.rt', r'"a path holds more than \d+ nodes"', 'the words of a refusal'),
    ('code', 'token_reader/src/*', r'\d+ => Ok\(Waits::\w+\)', 'the number of what waits, which is no code'),
    ('code', '*/proofs/*', r'_ \d+ tt', 'the place of a row in its table'),
    ('code', '*/src/*', r'1 \| 3 => true', 'the pairs of a row, which are no codes'),
    ('cells', 'tree_rules/proofs/*', r'drop \d+ rs', 'refusals that are passed over'),
    ('levels', 'file_numbers/* tree_source/* file_loader/* file_bytes/* file_save/*', '', 'the base of the groups of seven bits'),
    ('place', 'file_numbers/* tree_source/src/* file_loader/src/* file_save/src/*', '', 'a byte of a number'),
    ('bytes', 'file_bytes/* file_save/proofs/* file_columns_laws/proofs/*', r'AllBelow 65536|< 65536', 'all numbers of two bytes'),
    ('place', 'token_writer/src/* token_reader/src/*', r'tokens\[at \+ 1\]', 'a symbol, behind its code'),
    ('place', 'row_walk/src/* spines/src/digest.rt', r'rows\[at \+ \d\]', 'a cell of a row, beside its name'),
    ('place', 'row_open/src/*', r'entries\[at \+ \d\]', 'a number of an entry, beside its name'),
    ('nodes', 'spines/src/*', '', 'a row as one number'),
    ('levels', 'tree_one_pass/*', r'row / 128 % 8', 'a part of a number that holds a row of the table of forms'),
    ('levels', 'row_pack/*', '', 'the weight of a flag'),
    ('a node', 'text/* parens/* tokens/* reading/*', '', 'the most bytes of a number with its space'),
    ('bytes', '*/proofs/* token_writer/src/*', r'65536 - |count < 65536', 'what a loop counts down from: all numbers of two bytes'),
    ('bytes', 'answers/*', r'65536 \*|joined 65536', 'a refusal or a value as a part of one number'),
    ('bytes', 'recorded/src/* spines/src/*', '', 'the weight of a byte'),
]


def code(path):
    """The lines of a file without comments."""
    sign = '//' if path.suffix == '.rt' else '--'
    for at, line in enumerate(path.read_text().splitlines(), 1):
        yield at, re.sub(rf'(^|\s){sign}.*', '', line)


def places():
    """Each digit that is looked for: crate, kind, file, line, text, and the reason if it is allowed."""
    parts = ('src', 'specs', 'proofs')  # and not out/, which is large
    files = sorted(p for part in parts for end in ('rt', 'antt') for p in CRATES.glob(f'*/{part}/**/*.{end}'))
    for path in files:
        name = str(path.relative_to(CRATES))
        crate = name.split('/')[0]
        kinds = [kind for kind in KINDS if is_in(name, kind[2])]
        for at, line in code(path):
            for kind, _, _, pattern in kinds:
                for match in re.finditer(pattern, line):
                    yield crate, kind, name, at, line.strip(), reason(kind, name, line, match)


def is_in(name, files):
    """Whether a file is one of some, given by their patterns."""
    return any(fnmatch(name, pattern) for pattern in files.split())


def reason(kind, name, line, match):
    """Why digits of a kind may stand there, if they may."""
    for allowed, files, text, why in ALLOWED:
        if allowed in ('*', kind) and is_in(name, files):
            around = re.finditer(text or '.*', line)
            if any(found.start() < match.end() and match.start() < found.end() for found in around):
                return why
    return None


def defined(path, pattern, name=str):
    """The numbers that a file of `tree` defines, by name."""
    text = (CRATES / 'tree' / path).read_text()
    return {name(found): int(value.replace('_', '')) for found, value in re.findall(pattern, text, re.MULTILINE)}


def in_specs(name):
    """A name as specs spell it: NODE_CELLS is node_cells."""
    return name.lower()


def differences():
    """The names whose numbers are not the same in the specs and in the code."""
    const = r'^pub const (\w+): \w+ = ([\d_]+);'
    pairs = [
        ('sizes.rt', in_specs, defined('specs/Sizes.antt', r'^(\w+) = (\d+)$')),
        ('columns.rt', lambda name: in_specs(name) + '_column', defined('specs/Table.antt', r'^(\w+_column) = (\d+)$')),
        ('offsets.rt', lambda name: in_specs(name) + '_column', defined('specs/Table.antt', r'^(\w+_column) = (\d+)$')),
    ]
    for file, name, specs in pairs:
        code = defined(f'src/{file}', const, name)
        for found in sorted(specs.keys() | code.keys()):
            if specs.get(found) != code.get(found):
                yield f'{found}: {specs.get(found)} in the specs, {code.get(found)} in {file}'


def table(left):
    """A line for each crate, a column for each kind."""
    kinds = list(dict.fromkeys(kind for kind, *_ in KINDS))
    counts = Counter((crate, kind) for crate, kind, *_ in left)
    crates = sorted({crate for crate, _ in counts})
    row = '{:15}' + ' {:>7}' * (len(kinds) + 1)
    print(row.format('crate', *kinds, 'all'))
    for crate in crates:
        numbers = [counts[crate, kind] for kind in kinds]
        print(row.format(crate, *(n or '' for n in numbers), sum(numbers)))
    sums = [sum(counts[crate, kind] for crate in crates) for kind in kinds]
    print(row.format('all', *sums, sum(sums)))


def main(arguments):
    found = list(places())
    left = [place for place in found if place[-1] is None]
    if arguments[:1] in (['--list'], ['--allowed']):
        for crate, kind, name, at, line, why in found:
            if (why is None) == (arguments[0] == '--list') and arguments[1:2] in ([], [kind]):
                print(f'{kind}: {name}:{at}: {line[:150]}' + (f'   [{why}]' if why else ''))
        return 0
    table(left)
    allowed = Counter(place[-1] for place in found if place[-1])
    print('\nallowed:')
    for why, times in allowed.most_common():
        print(f'{times:5}  {why}')
    print('\nkinds: ' + '; '.join(f'{kind}, {what}' for kind, what, *_ in KINDS))
    print(f'{len(left)} digits without a name, at most {LIMIT}')
    differ = list(differences())
    for difference in differ:
        print(difference)
    print(f'{len(differ)} names of `tree` whose numbers differ between specs and code')
    return int(len(left) > LIMIT or bool(differ))


if __name__ == '__main__':
    sys.exit(main(sys.argv[1:]))
