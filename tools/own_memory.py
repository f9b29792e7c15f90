#!/usr/bin/env python3
"""Add up the arrays that loading and comparing tree files hold at a time.

    python3 tools/own_memory.py              the most cells, and the calls that hold them
    python3 tools/own_memory.py --self-test  the same on changed texts, each of which must fail

Starts from ROOTS and follows the calls of the Rattle code through src/ of each crate.
A function holds the arrays that it declares while those that it calls run, so what
counts is the way from a root on which they add up to the most. A function with a
const parameter counts once for each constant that a call names. A call by a dot may
be one of each method of that name, whatever its type. Fails above MOST
16-bit cells (document 02, Paper 8: "at most two 16-bit cells a node"), if a root is
missing, or if an array's length is no number that is known here.
"""

import re
import sys
from pathlib import Path

CRATES = Path(__file__).resolve().parent.parent / 'crates'

ROOTS = ['file_loader::load', 'file_loader::check', 'file_order::compare']

# Two for each of 4,096 nodes.
MOST = 8192

BITS = {'u8': 8, 'u16': 16, 'u32': 32, 'u64': 64, 'usize': 64, 'bool': 8}

# What the texts are changed to, one at a time: a copy of all numbers, a place for node 1 too, more places than that for
# few nodes, an array that is held while the rules are looked for, and arrays of methods.
EDITS = [
    (
        'file_loader/src/lib.rt',
        'const MOST_PLACES: usize = sizes::MOST_NODES as usize - 1;',
        'const MOST_PLACES: usize = sizes::NODE_CELLS * (sizes::MOST_NODES as usize);',
    ),
    (
        'file_loader/src/lib.rt',
        'const MOST_PLACES: usize = sizes::MOST_NODES as usize - 1;',
        'const MOST_PLACES: usize = sizes::MOST_NODES as usize;',
    ),
    ('file_loader/src/lib.rt', 'check_by::<FEW_PLACES>(', 'check_by::<8193>('),
    ('file_order/src/lib.rt', '    file_loader::check(', '    let kept = [0u64; 1];\n    file_loader::check('),
    (
        'file_loader/src/lib.rt',
        '        let (context, second) = number_at(file, 0)?;',
        '        let kept = [0u16; 8193];\n        let (context, second) = number_at(file, 0)?;',
    ),
    (
        'tree_source/src/lib.rt',
        '        if node == 1 {',
        '        let kept = [0u64; 1];\n        if node == 1 {',
    ),
]


class Wrong(Exception):
    pass


def texts():
    """The text of each file of code, comments and contracts left out, by its path below crates/."""
    found = {}
    for path in sorted(CRATES.glob('*/src/*.rt')):
        found[str(path.relative_to(CRATES))] = path.read_text()
    return found


def plain(text):
    """Code alone: no comments, no strings, no contracts."""
    text = re.sub(r'//[^\n]*', '', text)
    text = re.sub(r'^ *(?:requires|ensures)\b[^\n]*', '', text, flags=re.M)
    return re.sub(r'b?"[^"\n]*"', '""', text)


def constants(files):
    """The constants, by crate, module and name."""
    found = {}
    for path, text in files.items():
        crate, _, name = path.split('/')
        for match in re.finditer(r'const (\w+): \w+ = ([^;]+);', plain(text)):
            found[crate, name.removesuffix('.rt'), match[1]] = match[2]
    return found


def length(words, crate, known):
    """The value of an array's length."""

    def value(match):
        module, name = match[1] or 'lib', match[2]
        for at in [(crate, module, name), ('tree', module, name)]:
            if at in known:
                return str(length(known[at], crate, known))
        raise Wrong(f'{crate}: {module}::{name} is not known')

    words = re.sub(r'\bas usize\b', '', words)
    words = re.sub(r'(?:(\w+)::)?\b([A-Z][A-Z_]+)\b', value, words)
    words = re.sub(r'(\d)_(?=\d)', r'\1', words)
    if not re.fullmatch(r'[\d\s()+*-]+', words):
        raise Wrong(f'{crate}: the length `{words.strip()}` is no number that is known')
    return eval(words)  # digits, brackets, + - * alone


class Function:
    """A function, or a method of a type."""

    def __init__(self, crate, module, name, body, parameter=None, of=None):
        self.crate, self.module, self.name, self.body, self.parameter = crate, module, name, body, parameter
        self.of = of
        self.calls, self.cases = [], {}

    def by(self, words):
        """The function with what a call gives for its const parameter: it calls what the other does."""
        if not self.parameter:
            raise Wrong(f'{self} has no const parameter')
        if words not in self.cases:
            body = re.sub(rf'\b{self.parameter}\b', f'({words})', self.body)
            case = Function(self.crate, self.module, f'{self.name}::<{words}>', body, of=self.of)
            case.calls = self.calls
            self.cases[words] = case
        return self.cases[words]

    def cells(self, known):
        """The 16-bit cells of the arrays that it declares."""
        if re.search(r'\[(?:true|false|\d+); ', self.body):
            raise Wrong(f'{self}: an array whose cells have no type')
        arrays = re.findall(r'\[[^\[\];]*?(u8|u16|u32|u64|usize|bool); ([^\]]+)\]', self.body)
        return sum((BITS[kind] * length(words, self.crate, known) + 15) // 16 for kind, words in arrays)

    def __str__(self):
        return '::'.join(part for part in [self.crate, self.module, self.of, self.name] if part and part != 'lib')


def brought_in(code):
    """The paths that a file's `use` lines name, those of a group too."""
    for before, group, alone in re.findall(r'^(?:pub )?use (?:([\w:]+)::\{([^}]*)\}|([\w:]+));', code, re.M):
        yield from [alone] if alone else (f'{before}::{name.strip()}' for name in group.split(','))


# A function with its body: one with a contract has its brace on a line of its own, one without at the end of a line.
FUNCTION = re.compile(
    r'^( *)(?:pub(?:\(crate\))? )?(?:unsafe )?(?:extern "" )?fn (\w+)(?:<(?:const (\w+): usize|[^()]*?)>)?\('
    r'(?:(?!\bfn |\n\}).)*?(?:\n\1\{| \{)\n(.*?)\n\1\}',
    re.M | re.S,
)

# An impl or trait with what stands in it: its type.
IMPL = re.compile(r'^(?:impl|(?:pub )?trait)\b(?:<[^\n{]*?>)? (?:[^\n{]*? for )?(\w+)[^\n]*\{\n(.*?)^\}', re.M | re.S)


def functions(files):
    """Each function with those that it may call."""
    found, used = [], {}
    for path, text in files.items():
        crate, _, name = path.split('/')
        module = name.removesuffix('.rt')
        code = plain(text)
        used[crate, module] = {path.split('::')[-1]: path for path in brought_in(code)}
        types = [(match.start(2), match.end(2), match[1]) for match in IMPL.finditer(code)]
        for match in FUNCTION.finditer(code):
            of = next((kind for start, end, kind in types if start <= match.start() < end), None)
            if (of is None) != (match[1] == ''):
                raise Wrong(f'{crate}: {match[2]} stands in no impl that is known')
            found.append(Function(crate, module, match[2], match[4], match[3], of))
    by_name = {}
    for function in found:
        by_name.setdefault(function.name, []).append(function)
    crates = {function.crate for function in found}
    for function in found:
        for dot, words, given in re.findall(r'(\.)?\b([\w:]+?)(?:::<([^<>()]+)>)?\(', function.body):
            for other in by_name.get(words.split('::')[-1], []):
                if other is not function and may_call(function, dot, words, other, used, crates):
                    function.calls.append(other.by(given) if given and other.parameter else other)
    return {str(function): function for function in found}


def may_call(function, dot, words, other, used, crates):
    """Whether these words of a function's may call another."""
    if dot:
        return other.of is not None
    parts = words.split('::')
    full = used[function.crate, function.module].get(parts[0], parts[0]).split('::') + parts[1:]
    crate = full[0] if full[0] in crates else function.crate
    if other.of is not None:
        kind = function.of if full[-2:-1] == ['Self'] else full[-2] if len(full) > 1 else None
        return other.of == kind
    return other.crate == crate and (len(full) > 1 or other.module == function.module)


def reached(function, found):
    """A function and all that run below it."""
    if function not in found:
        found.append(function)
        for other in function.calls:
            reached(other, found)
    return found


def most(root, known):
    """The most cells that are held from a call on, and the calls that hold them. Only what holds nothing may call itself."""
    below = reached(root, [])
    own = {function: function.cells(known) for function in below}
    ways = {function: (own[function], []) for function in below}
    for _ in range(len(below) + 1):
        before = ways
        ways = {}
        for function in below:
            cells, way = max((before[other] for other in function.calls), key=lambda way: way[0], default=(0, []))
            here = [(str(function), own[function])] * (own[function] > 0)
            ways[function] = (own[function] + cells, here + way)
        if all(ways[function][0] == before[function][0] for function in below):
            return ways[root]
    raise Wrong(f'below {root} one that holds an array calls itself, so that what it holds is not known')


def held(files):
    """Each root with the most cells that it holds."""
    named, known = functions(files), constants(files)
    for root in ROOTS:
        if root not in named:
            raise Wrong(f'there is no function {root}')
        yield root, *most(named[root], known)


def self_test(files):
    for path, old, new in EDITS:
        if files[path].count(old) != 1:
            raise Wrong(f'{path} has `{old}` {files[path].count(old)} times')
        changed = dict(files, **{path: files[path].replace(old, new)})
        cells = max(cells for _, cells, _ in held(changed))
        print(f'{path} with `{new.strip().splitlines()[0]}`: {cells} cells, {"refused" if cells > MOST else "NOT REFUSED"}')
        if cells <= MOST:
            return 1
    return 0


def main():
    files = texts()
    try:
        if sys.argv[1:] == ['--self-test']:
            return self_test(files)
        failed = False
        for root, cells, way in held(files):
            print(f'{root}: {cells} cells, at most {MOST}')
            for name, own in way:
                print(f'    {name}: {own}')
            failed |= cells > MOST
        return 1 if failed else 0
    except Wrong as wrong:
        print(wrong)
        return 1


if __name__ == '__main__':
    sys.exit(main())
