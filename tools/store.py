#!/usr/bin/env python3
"""What columns are worth to a store: an archive as tree files and as columns, compressed.

Usage, from the root of the repository, after `bash rust/start`:

    (cd tools/bench && cargo run --release -- archive FOLDER)
    python3 tools/store.py FOLDER

Each folder of the archive is a set of tree files. A set `code` is added: what stands behind
`=`, `return`, `if`, `while` and `=>` on a line of this repository's own Rust files, where
`sheet read` reads it, with names numbered anew in each. `sheet pack` makes the columns. Each
compressor takes every file alone, and all files of a set one after another, by name. Sizes
are in bytes. zstd and xz are those of Debian's packages.
"""

import os
import re
import subprocess
import sys
import tempfile
from pathlib import Path

ROOT = Path(__file__).resolve().parent.parent
SHEET = Path(os.environ.get('SHEET', ROOT / 'rust/target/release/sheet'))
COMPRESSORS = {
    'zstd -3': ['zstd', '-q', '-3'],
    'zstd -19': ['zstd', '-q', '-19'],
    'xz -6': ['xz', '-6'],
}
ENDINGS = {'zstd': '.zst', 'xz': '.xz'}
BEFORE = [
    re.compile(r'(?:let|const) [^=]* = (?P<text>.+);$'),
    re.compile(r'return (?P<text>.+);$'),
    re.compile(r'\w[\w.\[\]]* (?:[-+*/|&]?=) (?P<text>.+);$'),
    re.compile(r'=> (?P<text>[^{]+),$'),
    re.compile(r'(?:if|while) (?P<condition>.+) \{$'),
]


def code(folder):
    """Writes the trees of expressions in this repository's Rust files, each once."""
    folder.mkdir()
    found = set()
    for path in sorted([*ROOT.glob('rust/**/*.rs'), *ROOT.glob('tools/**/*.rs')]):
        if 'target' in path.relative_to(ROOT).parts:
            continue
        for line in path.read_text().splitlines():
            for pattern in BEFORE:
                match = pattern.search(line.strip())
                if match:
                    found.add((match.lastgroup, match.group(match.lastgroup)))
                    break
    trees = set()
    for group, text in sorted(found):
        option = ['--condition'] if group == 'condition' else []
        read = subprocess.run([SHEET, 'read', *option, text], capture_output=True)
        if read.returncode == 0:
            trees.add(read.stdout)
    for number, tree in enumerate(sorted(trees)):
        (folder / f'{number:05}.tree').write_bytes(tree)


def compressed(command, files):
    """The bytes of files that are compressed each alone."""
    ending = ENDINGS[command[0]]
    for first in range(0, len(files), 1000):
        subprocess.run([*command, '-k', *files[first:first + 1000]], check=True)
    outputs = [Path(f'{file}{ending}') for file in files]
    total = sum(output.stat().st_size for output in outputs)
    for output in outputs:
        output.unlink()
    return total


def measured(folder):
    """Prints the lines of a set."""
    trees = sorted(folder.glob('*.tree'))
    packed = subprocess.run([SHEET, 'pack', folder], capture_output=True, text=True)
    assert packed.returncode == 0, packed.stderr
    columns = [Path(f'{tree}.columns') for tree in trees]
    both = {}
    with tempfile.TemporaryDirectory() as beside:
        for kind, files in (('trees', trees), ('columns', columns)):
            together = Path(beside) / kind
            together.write_bytes(b''.join(file.read_bytes() for file in files))
            sizes = [together.stat().st_size]
            for command in COMPRESSORS.values():
                sizes.append(compressed(command, files))
                sizes.append(compressed(command, [together]))
            both[kind] = sizes
    for file in columns:
        file.unlink()
    for kind, sizes in both.items():
        print(f'| {folder.name}: {len(trees)} {kind} |', ' | '.join(f'{size:,}' for size in sizes), '|')
    ratios = (f'{after / before:.2f}' for before, after in zip(*both.values()))
    print('| columns / trees |', ' | '.join(ratios), '|')


def main(archive):
    if not (archive / 'code').exists():
        code(archive / 'code')
    heads = [f'{name}, {how}' for name in COMPRESSORS for how in ('each alone', 'together')]
    print('| set | bytes |', ' | '.join(heads), '|')
    print('|---|' + '---:|' * (1 + len(heads)))
    for folder in sorted(path for path in archive.iterdir() if path.is_dir()):
        measured(folder)


if __name__ == '__main__':
    if len(sys.argv) != 2:
        sys.exit(__doc__)
    main(Path(sys.argv[1]))
