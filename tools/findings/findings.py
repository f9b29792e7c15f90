#!/usr/bin/env python3
"""Put each example of docs/DIFFERENCES.md, 'Where rustc reads the crate otherwise', to rustc again.

    python3 tools/findings/findings.py

An example is what prettyplease 0.3.0 writes for a tree, words parted by spaces, and
the same tree written so that there is no doubt. rustc must refuse the first, or read
another tree than for the second, or, for a needless pair, read the same tree for both.
Trees are what rustc prints with -Zunpretty=ast-tree, without parentheses, places and
node ids. Where the command `sheet` is built (`bash rust/start`), its text for the tree must
be what the crate writes, since the rows are ours too; for the callees that our order groups
and the crate's does not it must be the second text. The last line ends with `different 0`.
"""

import os
import re
import subprocess
import sys
import tempfile
from pathlib import Path

# How each of document 01's contexts is written.
CONTEXTS = [
    'fn f() { let _ = %s ; }',
    'fn f() { %s ; }',
    'fn f() { match x { _ => %s , } }',
    'fn f() { if %s { } }',
]

REFUSED = 'refused'
OTHER = 'another tree'
SAME = 'the same tree'

# ---- trees: form, attributes, detail and operands, by document 01's numbers


def node(form, *operands, detail=0, attributes=0):
    return form, attributes, detail, operands


X, BLOCK, LIT, INFER = node(26), node(6), node(20), node(18)
CONTINUE, BREAK, RETURN = node(12), node(7), node(31)
LABELLED = node(6, detail=1)
INNER = node(6, attributes=1)
NAMED_TYPE, DYN, IMPL = node(49, detail=1), node(53, detail=1), node(44, detail=1)


def binary(operator, left, right, attributes=0):
    return node(5, left, right, detail=operator, attributes=attributes)


def add(left, right, attributes=0):
    return binary(0, left, right, attributes)


def assign(left, right):
    return node(2, left, right)


def upto(start, end):
    return node(27, start, end)


def jump(form, value):
    return node(form, value)


def call(callee):
    return node(8, callee)


def cast(value, to):
    return node(9, value, to)


def field(base, attributes=0):
    return node(13, base, attributes=attributes)


def ref(inner):
    return node(29, inner)


def deref(inner):
    return node(36, inner)


def group(inner, attributes=0):
    return node(15, inner, attributes=attributes)


def closure(body):
    return node(10, body)


def attributed(tree):
    return tree[0], 2, tree[2], tree[3]


def tree_file(context, tree):
    """The bytes of the tree file; all numbers are below 128."""
    nodes = []

    def place(tree):
        if tree is None:
            return 0
        form, attributes, detail, operands = tree
        cells = [form, attributes, detail, 0, 0, 0]
        nodes.append(cells)
        number = len(nodes)
        for at, operand in enumerate(operands):
            cells[3 + at] = place(operand)
        return number

    place(tree)
    return bytes([context, len(nodes)] + [cell for cells in nodes for cell in cells])


# ---- the examples

# class, context, what the crate writes, the tree without doubt, what rustc does, the tree
MISSING = [
    ('range-block', 1, 'x .. { } + y', 'x .. ( { } + y )', REFUSED, upto(X, add(BLOCK, X))),
    ('range-block', 1, '.. { } ( )', '.. ( { } ( ) )', REFUSED, upto(None, call(BLOCK))),
    ('range-block', 1, '& .. { } + y', '& .. ( { } + y )', OTHER, ref(upto(None, add(BLOCK, X)))),
    ('range-block', 2, '& .. { } + y', '& .. ( { } + y )', OTHER, ref(upto(None, add(BLOCK, X)))),
    ('prefix-block', 1, '* { } [ 0 ] = x', '* ( { } [ 0 ] ) = x', REFUSED,
     assign(deref(node(17, BLOCK, LIT)), X)),
    ('prefix-block', 1, '& { } ( )', '& ( { } ( ) )', REFUSED, ref(call(BLOCK))),
    ('continue-as', 0, 'continue as T', '( continue ) as T', REFUSED, cast(CONTINUE, NAMED_TYPE)),
    ('bounds-plus', 0, 'x as & dyn B + y', '( x as & dyn B ) + y', REFUSED,
     add(cast(X, node(51, DYN)), X)),
    ('bounds-plus', 0, 'x as impl B += y', '( x as impl B ) += y', REFUSED,
     binary(18, cast(X, IMPL), X)),
    ('await-call', 0, 'x . await ( )', '( x . await ) ( )', REFUSED, call(node(4, X))),
    ('underscore', 0, 'return _', 'return ( _ )', REFUSED, jump(31, INFER)),
    ('underscore', 0, 'break _', 'break ( _ )', REFUSED, jump(7, INFER)),
    ('underscore', 0, 'yield _', 'yield ( _ )', REFUSED, jump(40, INFER)),
    ('underscore', 0, '.. _', '.. ( _ )', REFUSED, upto(None, INFER)),
    ('attributed-jump', 0, '#[x] return ?', '( #[x] return ) ?', OTHER,
     node(33, attributed(RETURN))),
    ('attributed-jump', 0, '#[x] return . f', '( #[x] return ) . f', OTHER,
     field(attributed(RETURN))),
    ('inner-attribute-block', 3, 'break { #![x] }', 'break ( { #![x] } )', REFUSED,
     jump(7, INNER)),
    ('inner-attribute-block', 3, '.. { #![x] }', '.. ( { #![x] } )', REFUSED, upto(None, INNER)),
    ('group-jump', 0, 'return ( )', '( return ) ( )', OTHER, call(group(RETURN))),
    ('group-jump', 0, 'break ..', '( break ) ..', OTHER, upto(group(BREAK), None)),
    ('group-jump', 0, 'return | x', '( return ) | x', REFUSED, binary(9, group(RETURN), X)),
    ('group-jump', 0, 'break < x', '( break ) < x', REFUSED, binary(13, group(BREAK), X)),
    ('group-right', 0, 'x + y ..', 'x + ( y .. )', OTHER, add(X, group(upto(X, None)))),
    ('group-right', 0, '& x ..', '& ( x .. )', OTHER, ref(group(upto(X, None)))),
    ('group-right', 0, '& x + y = z', '& ( x + y ) = z', OTHER, assign(ref(group(add(X, X))), X)),
    ('group-attribute', 0, '#[x] x + y', '#[x] ( x + y )', OTHER, group(add(X, X), 2)),
    ('group-attribute', 0, '#[x] x . f', '( #[x] x ) . f', OTHER, field(group(X, 2))),
    ('group-attribute', 0, '#[x] ..', '#[x] ( .. )', REFUSED, group(upto(None, None), 2)),
    ('group-label', 0, "break 'a : { }", "break ( 'a : { } )", REFUSED,
     jump(7, group(LABELLED, 1))),
]

# The same where our callee order adds the pair: what we write is the tree without doubt.
CALLEES = [
    ('attributed-member', 0, '#[x] x . 0 ( )', '( #[x] x . 0 ) ( )', OTHER,
     call(node(13, X, detail=1, attributes=2))),
    ('group-field', 0, 'x . f ( )', '( x . f ) ( )', OTHER, call(group(field(X)))),
    ('group-field', 0, '#[x] x . f ( )', '( #[x] x . f ) ( )', OTHER, call(group(field(X), 2))),
    ('group-field', 0, 'x . f ( )', '( x . f ) ( )', OTHER, call(group(group(field(X, 1))))),
    ('group-field', 3, '( S { } ) . f ( )', '( S { } . f ) ( )', OTHER,
     call(group(field(node(32))))),
]

# class, context, what the crate writes, the same without the needless pair, the tree
NEEDLESS = [
    ('inner pair for inner attributes', 0, '( x + y )', 'x + y', add(X, X, 1)),
    ('outer pair round an inner one', 0, '( ( x + y ) ) . f', '( x + y ) . f',
     field(add(X, X, 1))),
    ('within an inner pair', 1, '#[x] ( ( { } ) + y )', '#[x] ( { } + y )', add(BLOCK, X, 2)),
    ('closure-range', 0, '( |p| .. ) . f', '|p| .. . f', field(closure(upto(None, None)))),
    ('closure-range', 0, '( |p| x .. ) as T', '|p| x .. as T',
     cast(closure(upto(X, None)), NAMED_TYPE)),
    ('break-label', 0, "break ( ( 'a : { } + x ) ( ) )", "break ( 'a : { } + x ) ( )",
     jump(7, call(add(LABELLED, X)))),
    ('attributed-label', 0, "break ( #[x] 'a : { } )", "break #[x] 'a : { }",
     jump(7, attributed(LABELLED))),
    ('attributed-block', 3, 'break #[x] ( { } ) . f', 'break #[x] { } . f',
     jump(7, field(BLOCK, 2))),
    ('range-end-pair', 0, '& ( .. ( x = y ) ) = z', '& .. ( x = y ) = z',
     assign(ref(upto(None, assign(X, X))), X)),
    ('range-end-pair', 0, '( break .. ( x .. ) ) = y', 'break .. ( x .. ) = y',
     assign(jump(7, upto(None, upto(X, None))), X)),
    ('macro-range', 1, '( m ! ( ) .. ) + x', 'm ! ( ) .. + x', add(upto(node(22), None), X)),
    ('range-block', 1, '& ( .. { } ) + x', '& .. { } + x', add(ref(upto(None, BLOCK)), X)),
    ('group-jump', 0, '* ( return x )', '* return x', deref(group(jump(31, X)))),
]

# ---- what we write: the command `sheet show`, if it is built

SHEETS = [Path(__file__).resolve().parents[2] / 'rust/target' / build / 'sheet'
          for build in ('release', 'debug')]
WORDS = {'break', 'return', 'yield', 'continue', 'as', 'dyn', 'impl', 'await', '_'}


def spelled(text):
    """The text without blanks, each name and number as N, closed forms empty."""
    for inside, empty in (('{ .. }', '{}'), ('{ #![x] }', '{}'), ('|..|', '|p|'),
                          ('m!(..)', 'm!()'), ('#[..]', '#[x]')):
        text = text.replace(inside, empty)
    words = re.findall(r'\w+|\S', text)
    return ''.join(word if word in WORDS or not word[0].isalnum() else 'N' for word in words)


def is_ours(context, written, tree):
    """Whether our own rows write the same; None without the command."""
    sheet = next((sheet for sheet in SHEETS if sheet.exists()), None)
    if sheet is None:
        return None
    run = subprocess.run([sheet, 'show', '-'], input=tree_file(context, tree), capture_output=True)
    return run.returncode == 0 and spelled(run.stdout.decode()) == spelled(written)


# ---- what rustc reads

# Each text is a file of this name, which stands in each place that is printed.
FILE = 'example.rs'


def parsed(text):
    """The printed value: heads with what is inside, without ids and places."""
    stack = [('', [])]
    for line in text.splitlines():
        line = line.strip().rstrip(',')
        if line in ('}', ')', ']'):
            value = stack.pop()
            stack[-1][1].append(value)
        elif line.endswith(('{', '(', '[')):
            stack.append((line, []))
        else:
            stack[-1][1].append((line, []))
    assert len(stack) == 1, 'all is closed'
    return without_places(stack[0])


def without_places(value):
    head, inside = value
    return head, [without_places(v) for v in inside if not is_place(v[0])]


def is_place(head):
    return FILE in head or head.startswith(('id: ', 'tokens: '))


def part(value, name):
    return next((v for v in value[1] if v[0].startswith(name + ': ')), None)


def bare(value):
    """The value without parentheses; attributes of a parenthesised expression are its own."""
    head, inside = value
    inside = [bare(v) for v in inside]
    kind = part((head, inside), 'kind')
    if kind and kind[0] == 'kind: Paren(':
        inner = kind[1][0]
        attributes = (part((head, inside), 'attrs') or ('', []))[1]
        fields = [v for v in inner[1] if not v[0].startswith('attrs: ')]
        own = (part(inner, 'attrs') or ('', []))[1]
        # The field's name is the outer one's.
        return head, fields + [('attrs: [', attributes + own)]
    attrs = [v for v in inside if v[0].startswith('attrs: ')]
    if attrs:
        inside = [v for v in inside if v not in attrs] + [('attrs: [', attrs[0][1])]
    return head, inside


def read(context, text, folder):
    """rustc's tree, or None if it refuses the text."""
    file = Path(folder) / FILE
    file.write_text(CONTEXTS[context] % text + '\n')
    run = subprocess.run(
        ['rustc', '--edition', '2021', '-Zunpretty=ast-tree', str(file)],
        env=dict(os.environ, RUSTC_BOOTSTRAP='1'), capture_output=True, text=True)
    return bare(parsed(run.stdout)) if run.returncode == 0 else None


def outcome(context, written, meant, folder):
    trees = [read(context, text, folder) for text in (written, meant)]
    if trees[1] is None:
        return 'the second text is refused'
    if trees[0] is None:
        return REFUSED
    return SAME if trees[0] == trees[1] else OTHER


def main():
    examples = MISSING + CALLEES + [example[:4] + (SAME, example[4]) for example in NEEDLESS]
    different, ours = 0, 0
    with tempfile.TemporaryDirectory() as folder:
        for example in examples:
            name, context, written, meant, expected, tree = example
            found = outcome(context, written, meant, folder)
            written_by_us = is_ours(context, meant if example in CALLEES else written, tree)
            ours += written_by_us is True
            is_told = found == expected and written_by_us is not False
            different += not is_told
            mark = '' if is_told else f'   NOT {expected}, or not what we write'
            print(f'{name}, context {context}: `{written}` for `{meant}`: {found}{mark}')
    print(f'examples {len(examples)}, written so by our own rows {ours}, different {different}')
    return different > 0


if __name__ == '__main__':
    sys.exit(main())
