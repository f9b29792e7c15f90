#!/usr/bin/env python3
"""Draw the crates in layers, from crates.txt.

    python3 tools/map.py                      a line for each layer, and the graph (mermaid)
    python3 tools/map.py --check docs/MAP.md  fails unless the file holds just these lines and this graph, and a row for
                                              each crate that names its public functions
    python3 tools/map.py --layers README.md   fails unless the file holds just the lines

The lines `# layer NAME | what it is | layers that it may lean on | its crates` of
crates.txt say what the layers are. Fails as well if a crate is in no layer or in two, or
leans on one of a layer that its own may not lean on. A crate's edges that follow from
others are not drawn; crates of the kit are left out.
"""

import re
import sys
from pathlib import Path

ROOT = Path(__file__).resolve().parent.parent


class Layer:
    def __init__(self, line):
        name, self.what, below, crates = (part.strip() for part in line.split('|'))
        self.name = name.removeprefix('# layer ')
        self.below = below.split()
        self.crates = crates.split()


def read():
    """The layers, and what each crate leans on."""
    lines = (ROOT / 'crates.txt').read_text().splitlines()
    layers = [Layer(line) for line in lines if line.startswith('# layer ')]
    rows = [line.split(':') for line in lines if line and not line.startswith('#')]
    leans = {name.split()[0]: rest.split() for name, rest in rows}  # behind the name may stand `staticlib`
    return layers, {name: [other for other in others if other in leans] for name, others in leans.items()}


def faults(layers, leans):
    """What is wrong with the layers, in words."""
    listed = [crate for layer in layers for crate in layer.crates]
    for crate in sorted(set(listed) | set(leans)):
        if crate not in leans:
            yield f'{crate} is in a layer, but no crate'
        elif listed.count(crate) != 1:
            yield f'{crate} is in {listed.count(crate)} layers'
    of = {crate: layer.name for layer in layers for crate in layer.crates}
    names = [layer.name for layer in layers]
    for at, layer in enumerate(layers):
        for below in set(layer.below) - set(names[:at]):
            yield f'layer {layer.name} may lean on {below}, which is no layer below it'
        for crate in layer.crates:
            for other in leans.get(crate, []):
                if of.get(other) not in [layer.name, *layer.below]:
                    yield f'{crate} of layer {layer.name} leans on {other} of layer {of.get(other)}'


def reached(crate, leans):
    """All that a crate leans on, through others too."""
    found = set()
    waiting = list(leans[crate])
    while waiting:
        other = waiting.pop()
        if other not in found:
            found.add(other)
            waiting.extend(leans[other])
    return found


def lined(layers):
    """The lines of the layers, as a document holds them."""
    for layer in layers:
        below = ', '.join(layer.below) or 'nothing'
        crates = ', '.join(f'`{crate}`' for crate in layer.crates)
        yield f'- **{layer.name}** (may lean on {below}): {layer.what}. {crates}'


def drawn(layers, leans):
    """The graph, as a document holds it."""
    yield from ['```mermaid', 'flowchart BT']
    for layer in layers:
        yield f'  subgraph layer_{layer.name}["{layer.name}"]'
        yield from (f'    {crate}' for crate in layer.crates)
        yield '  end'
    for layer in layers:
        for crate in layer.crates:
            direct = leans[crate]
            further = set().union(*(reached(other, leans) for other in direct))
            yield from (f'  {crate} --> {other}' for other in direct if other not in further)
    yield '```'


def public(crate):
    """The public functions of a crate's library, those of its public modules too."""
    library = ROOT / 'crates' / crate / 'src' / 'lib.rt'
    if not library.exists():
        return []
    modules = re.findall(r'^pub mod (\w+)', library.read_text(), flags=re.M)
    files = [library, *(library.parent / f'{module}.rt' for module in modules)]
    function = r'^\s*pub (?:extern "C" )?fn (\w+)'
    return [name for file in files for name in re.findall(function, file.read_text(), flags=re.M)]


def unnamed(text, leans):
    """What a document with a row for each crate does not name, in words."""
    rows = {line.split('`')[1]: line for line in text.splitlines() if line.startswith('| `')}
    for crate in leans:
        if crate not in rows:
            yield f'there is no row for {crate}'
        else:
            named = set(re.findall(r'\w+', rows[crate].split('|')[-2]))
            yield from (f'the row of {crate} does not name {name}' for name in public(crate) if name not in named)
    yield from (f'there is a row for {crate}, which is no crate' for crate in rows if crate not in leans)


def main(arguments):
    layers, leans = read()
    wrong = list(faults(layers, leans))
    if wrong:
        print('\n'.join(wrong))
        return 1
    lines = '\n'.join(lined(layers))
    whole = '\n'.join([lines, '', *drawn(layers, leans)])
    match arguments:
        case []:
            print(whole)
        case ['--check' | '--layers' as what, file]:
            text = Path(file).read_text()
            wanted = whole if what == '--check' else lines
            if f'\n\n{wanted}\n\n' not in text:
                wrong.append('it does not hold the map that tools/map.py draws')
            if what == '--check':
                wrong.extend(unnamed(text, leans))
        case _:
            print(__doc__)
            return 2
    for fault in wrong:
        print(f'{file}: {fault}')
    return 1 if wrong else 0


if __name__ == '__main__':
    sys.exit(main(sys.argv[1:]))
