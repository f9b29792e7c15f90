#!/usr/bin/env python3
"""Record tree files with the answers that documents 01 and 02 give for loading them.

Usage, from the root of the repository:

    python3 tools/record_files.py

It writes crates/recorded/data/files and prints how many files have each reply.
The same files come out at every run.

What is recorded. `load` takes the bytes of a tree file and a lent node table.
It refuses with a number from 1 to 11 and leaves the table as it was, or it
accepts with context and count and fills six cells of the table for each node,
leaving the cells behind them as they were.

Records stand one behind the other, all numbers little endian:

    u16  length of the lent table in cells, from 0 to 65,535
    u32  length of the file in bytes, at most 70,000
    u16  reply: 0 accepted, else the refusal
    u16  context, 0 when refused
    u16  count, 0 when refused
    the bytes of the file
    when accepted, 6 * count cells of u16

Where the answers come from. The part 'The rules' below states document 01 anew, and of
document 02 Paper 4 (a node's sixth number, its symbol),
sentence by sentence, one function for each refusal, and `reply` takes the first
that applies. It shares nothing with the loader. Where the text leaves room:

  - A present operand in a place that allows none is 7, also above the count. In
    a place that allows one, an operand above the count is 8 and has no class.
  - The class rule of lists is local. The owner's list operand must be a link
    whose item is of the list's class; a next link must be a link whose item is
    of the class of the item before it, whoever owns the two. An item above the
    count takes no part in a comparison. An item that is a link is of the wrong
    class.
  - A path type, ImplTrait or TraitObject with detail 0 passes 6, may have no
    operands, and is met by 9.
  - 'Attribute-free' in 10 means attributes 0.
  - A path type without a segment has no name, and so no symbol (6).
  - A path (11) counts expressions and types; an item stands one below the owner
    of its list.

The makers further down give, where they can, the reply that they mean to
provoke, and a record whose answer by the rules is another stops the script.
"""

import random
import re
import struct
from collections import Counter, namedtuple
from functools import cached_property
from pathlib import Path

OUTPUT = Path('crates/recorded/data/files')
LONGEST_RECORDED = 70_000
LARGEST_OUTPUT = 6_000_000

CELLS = 6  # the numbers of a node
MOST_CELLS = CELLS * 4_096

# ---------------------------------------------------------------------------
# Names and numbers of document 01
# ---------------------------------------------------------------------------

EXPRESSIONS = (
    'Array Assign Async Await Binary Block Break Call Cast Closure Const '
    'Continue Field ForLoop Group If Index Infer Let Lit Loop Macro Match '
    'MethodCall Paren Path Range RawAddr Reference Repeat Return Struct Try '
    'TryBlock Tuple Unary Unsafe Verbatim While Yield').split()
TYPES = ['Type' + name for name in (
    'Array FnPtr Group ImplTrait Infer Macro Never Paren Path Ptr Reference '
    'Slice TraitObject Tuple Verbatim').split()]
FORMS = EXPRESSIONS + TYPES + ['Link']
FORM_NUMBER = {name: number for number, name in enumerate(FORMS, 1)}
NAME_OF_FORM = dict(enumerate(FORMS, 1))
assert [FORM_NUMBER[name] for name in ('Array', 'Yield', 'TypeArray', 'TypeVerbatim', 'Link')] \
    == [1, 40, 41, 55, 56]

CLASS_OF = {**dict.fromkeys(EXPRESSIONS, 'expression'), **dict.fromkeys(TYPES, 'type'),
            'Link': 'link'}

ATTRIBUTES = ('none', 'inner only', 'some outer')
OPERATORS = (
    'Add Sub Mul Div Rem And Or BitXor BitAnd BitOr Shl Shr Eq Lt Le Ne Ge Gt '
    'AddAssign SubAssign MulAssign DivAssign RemAssign BitXorAssign '
    'BitAndAssign BitOrAssign ShlAssign ShrAssign').split()
DELIMITERS = ('parenthesis', 'bracket', 'brace')
LAST_SEGMENT = ('none there', 'no arguments', 'angle', 'parenthesised')
LAST_BOUND = LAST_SEGMENT + ('lifetime', 'precise capture', 'verbatim',
                             'verbatim ending in braces')
NO, ANGLE, PARENTHESISED = 1, 2, 3

DETAILS = {
    'Binary': OPERATORS,
    'Unary': ('Deref', 'Not', 'Neg'),
    **dict.fromkeys(('Block', 'ForLoop', 'Loop', 'While', 'Break'), ('', 'labelled')),
    **dict.fromkeys(('Macro', 'TypeMacro'), DELIMITERS),
    'Range': ('', 'closed'),
    'Field': ('named', 'numbered'),
    'Closure': ('', 'output written'),
    **dict.fromkeys(('TypePtr', 'RawAddr', 'Reference', 'TypeReference'), ('', 'mutable')),
    **dict.fromkeys(('Verbatim', 'TypeVerbatim'), ('', 'ends in a brace group')),
    'TypePath': LAST_SEGMENT,
    **dict.fromkeys(('TypeImplTrait', 'TypeTraitObject'), LAST_BOUND),
}
assert len(OPERATORS) == 28 and len(LAST_BOUND) == 8
SEGMENTED = ('TypePath', 'TypeImplTrait', 'TypeTraitObject')

# Document 02: "a symbol from 0 to 65,535, used by Path, Lit, named or numbered Field,
# MethodCall and path types, and 0 elsewhere". Here one of each length, at its limits.
NAMED = ('Path', 'Lit', 'Field', 'MethodCall', 'TypePath')
SYMBOLS = (1, 127, 128, 16_383, 16_384, 65_535)


def has_symbol(name, detail):
    """Whether a node may have a symbol that is not 0."""
    return name in NAMED and not (name in SEGMENTED and LAST_BOUND[detail] == 'none there')


def details(name):
    """The detail numbers that a form may have."""
    return range(len(DETAILS.get(name, ('',))))


def attributes(name):
    """The attribute numbers that a form may have."""
    if CLASS_OF[name] == 'expression' and name != 'Verbatim':
        return range(len(ATTRIBUTES))
    return range(1)


ALLOWED_LABELS = {(FORM_NUMBER[name], attribute, detail) for name in FORMS
                  for attribute in attributes(name) for detail in details(name)}

# What a place for an operand is called, and the class of node that stands there.
CLASS_WANTED = {
    'expression': 'expression', 'optional expression': 'expression',
    'type': 'type', 'optional type': 'type',
    'expression list': 'link', 'type list': 'link', 'next link': 'link',
}
REQUIRED = {'expression', 'type', 'item'}
SIDES = ('first', 'second')

OPERANDS = {
    **dict.fromkeys(('Assign', 'Binary', 'Index'), ('expression', 'expression')),
    'Cast': ('expression', 'type'),
    **dict.fromkeys(('Await', 'Closure', 'Field', 'Group', 'Let', 'Paren', 'RawAddr',
                     'Reference', 'Try', 'Unary'), ('expression', 'nothing')),
    **dict.fromkeys(('TypePtr', 'TypeReference'), ('type', 'nothing')),
    **dict.fromkeys(('Break', 'Return', 'Yield'), ('optional expression', 'nothing')),
    'TypeFnPtr': ('optional type', 'nothing'),
    'Range': ('optional expression', 'optional expression'),
    **dict.fromkeys(('Call', 'MethodCall'), ('expression', 'expression list')),
    'Link': ('item', 'next link'),
}


def places(name, detail):
    """What may stand in the first and in the second place of a node."""
    if name == 'TypePath' and detail == ANGLE:
        return ('nothing', 'type list')
    if name in SEGMENTED and detail == PARENTHESISED:
        return ('optional type', 'nothing')
    return OPERANDS.get(name, ('nothing', 'nothing'))


# ---------------------------------------------------------------------------
# The rules
# ---------------------------------------------------------------------------

NUMBER = re.compile(rb'[\x80-\xff]*[\x00-\x7f]')


def read_numbers(data, start, how_many):
    """That many numbers from a byte on and where they end, or None if one is malformed.

    A number is groups of seven bits, lowest group first; the high bit of a byte
    says another follows. Malformed: cut off, above 65,535, or a last group of
    zero after others.
    """
    numbers = []
    for _ in range(how_many):
        found = NUMBER.match(data, start)
        if found is None:
            return None
        groups = found.group()
        number = sum((group & 0x7F) << (7 * place) for place, group in enumerate(groups))
        if number > 65_535 or (len(groups) > 1 and groups[-1] == 0):
            return None
        numbers.append(number)
        start = found.end()
    return numbers, start


class Node(namedtuple('Node', 'form attributes detail first second symbol')):
    """The six numbers of a node."""

    __slots__ = ()

    @property
    def name(self):
        """The form's name."""
        return NAME_OF_FORM[self.form]

    @property
    def node_class(self):
        """Expression, type or link."""
        return CLASS_OF[self.name]

    @property
    def present(self):
        """The operands that are there. Operand 0 is absent."""
        return [operand for operand in (self.first, self.second) if operand]


class TreeFile:
    """A tree file beside the length of the lent table, read as far as asked."""

    def __init__(self, data, lent):
        self.data = data
        self.lent = lent

    @cached_property
    def header(self):
        """Context and count with the place where the body starts, or None."""
        return read_numbers(self.data, 0, 2)

    @property
    def context(self):
        """The first number of the header."""
        return self.header[0][0]

    @property
    def count(self):
        """The second number of the header."""
        return self.header[0][1]

    @cached_property
    def body(self):
        """Six numbers a node with the place where they end, or None."""
        return read_numbers(self.data, self.header[1], CELLS * self.count)

    @cached_property
    def nodes(self):
        """The nodes by their numbers, from 1."""
        numbers = iter(self.body[0])
        return {at: Node(*cells) for at, cells in enumerate(zip(*[numbers] * CELLS), 1)}

    def class_at(self, operand):
        """The class of the node with that number; None when there is no such node."""
        return self.nodes[operand].node_class if operand in self.nodes else None


def file_is_too_long(file):
    """1. The tree file is longer than 65,536 bytes."""
    return len(file.data) > 65_536


def header_is_malformed(file):
    """2. A header number is malformed."""
    return file.header is None


def context_is_too_high(file):
    """3. The context is above 3."""
    return file.context not in (0, 1, 2, 3)


def count_does_not_fit(file):
    """4. The node count is 0 or above 4,096, or a lent table is shorter than that many nodes."""
    return not 1 <= file.count <= min(4_096, file.lent // CELLS)


def body_is_malformed(file):
    """5. A body number is malformed, or bytes follow the last one."""
    return file.body is None or file.body[1] < len(file.data)


def label_is_not_allowed(file):
    """6. A form, attribute or detail number is not allowed below; or a symbol is not 0 on a
    node that has none.
    """
    return not {node[:3] for node in file.nodes.values()} <= ALLOWED_LABELS or any(
        node.symbol and not has_symbol(node.name, node.detail) for node in file.nodes.values())


def operand_is_misplaced(file):
    """7. An operand is absent where required, present where forbidden, or of the
    wrong class; or node 1 is no expression. An operand above the count has no
    class and is met by 8. In a list the first link's item must be of the list's
    class, and each next link's item of the class of the item before it.
    """
    return file.class_at(1) != 'expression' or not all(
        operand_fits(file, node, place, operand)
        for node in file.nodes.values()
        for place, operand in zip(places(node.name, node.detail), (node.first, node.second)))


def operand_fits(file, node, place, operand):
    """Whether one operand of a node is as its place wants it."""
    if place == 'nothing' or operand == 0:
        return operand == 0 and place not in REQUIRED
    found = file.class_at(operand)
    if found is None:
        return True
    if place == 'item':
        return found in ('expression', 'type')
    if found != CLASS_WANTED[place]:
        return False
    if found != 'link':
        return True
    # The first link's item, or the next one's; an absent one is met at its own link.
    item = file.class_at(file.nodes[operand].first)
    wanted = {'expression list': 'expression', 'type list': 'type',
              'next link': file.class_at(node.first)}[place]
    return item is None or wanted is None or item == wanted


def numbering_is_wrong(file):
    """8. An operand's number is not above its owner's, is above the count, or some
    node but 1 is not owned exactly once.
    """
    owned = [(owner, operand) for owner, node in file.nodes.items() for operand in node.present]
    times = Counter(operand for _, operand in owned)
    return any(operand <= owner or operand > file.count for owner, operand in owned) or any(
        times[number] != 1 for number in file.nodes if number != 1)


def segment_or_bound_is_missing(file):
    """9. A path type has no segment, or a bound list is empty."""
    return any(node.name in SEGMENTED and LAST_BOUND[node.detail] == 'none there'
               for node in file.nodes.values())


def body_of_closure_is_no_plain_block(file):
    """10. A closure with a written output has a body other than an attribute-free,
    unlabelled Block.
    """
    bodies = {file.nodes[node.first][:3] for node in file.nodes.values()
              if node.name == 'Closure' and DETAILS['Closure'][node.detail] == 'output written'}
    return not bodies <= {(FORM_NUMBER['Block'], 0, 0)}


def path_is_too_long(file):
    """11. A path from node 1 holds more than 128 nodes, list links not counted."""
    waiting = [(1, 0)]
    while waiting:
        number, above = waiting.pop()
        node = file.nodes[number]
        held = above + (node.name != 'Link')
        if held > 128:
            return True
        waiting += [(operand, held) for operand in node.present]
    return False


REFUSALS = (
    file_is_too_long, header_is_malformed, context_is_too_high, count_does_not_fit,
    body_is_malformed, label_is_not_allowed, operand_is_misplaced, numbering_is_wrong,
    segment_or_bound_is_missing, body_of_closure_is_no_plain_block, path_is_too_long)


def reply(file):
    """0 means done. Otherwise the first that applies is returned."""
    return next((number for number, applies in enumerate(REFUSALS, 1) if applies(file)), 0)


# ---------------------------------------------------------------------------
# Making files
# ---------------------------------------------------------------------------

class Dice:
    """Chance that falls the same way at every run."""

    def __init__(self, seed):
        self._random = random.Random(seed).random

    def below(self, limit):
        """A number from 0 to limit - 1."""
        return int(self._random() * limit)

    def between(self, least, most):
        """A number from least to most."""
        return least + self.below(most - least + 1)

    def chance(self, probability):
        """Yes with that probability."""
        return self._random() < probability

    def pick(self, choices):
        """One of a sequence."""
        return choices[self.below(len(choices))]

    def shuffled(self, things):
        """The same things in another order."""
        rest = list(things)
        return [rest.pop(self.below(len(rest))) for _ in things]


def encode(numbers):
    """Numbers as groups of seven bits, lowest group first."""
    out = bytearray()
    for number in numbers:
        while number > 0x7F:
            out.append(0x80 | number & 0x7F)
            number >>= 7
        out.append(number)
    return bytes(out)


def padded(number, zeros):
    """A number with further groups of zero behind it: always malformed."""
    *low, last = encode([number])
    return bytes(low) + bytes([0x80 | last]) + b'\x80' * (zeros - 1) + b'\x00'


def malformed_spellings(number):
    """Spellings that a careless reader takes for that number: overlong ones, and
    numbers above 65,535 that are the same in 16, 32 or 64 bits."""
    return ([padded(number, zeros) for zeros in (1, 2, 3, 4, 9, 10)]
            + [encode([number + (1 << bits)]) for bits in (16, 17, 21, 28, 32, 35, 64, 70)])


class Tree:
    """A node with what stands in its two places: nothing (None), a tree, or, to
    damage it, a number as it is, 'self' for its own number or 'above' for the
    first number above the count. A form may be given by name or by number."""

    __slots__ = ('form', 'attributes', 'detail', 'first', 'second', 'symbol')

    def __init__(self, form, first=None, second=None, attributes=0, detail=0, symbol=0):
        self.form = form
        self.attributes = attributes
        self.detail = detail
        self.first = first
        self.second = second
        self.symbol = symbol

    def operands(self):
        """The trees in its places."""
        return [tree for tree in (self.first, self.second) if isinstance(tree, Tree)]


ORDERS = ('printing', 'mirrored', 'breadth', 'random')


def nodes_of(root, order='printing', dice=None, orphans=()):
    """The nodes of a tree as a list, the root first and owners before operands.

    Printing order has the first operand's nodes before the second's, mirrored
    the second's before the first's, breadth goes level by level, and random is
    any order with owners first. Orphans are trees that nobody owns.
    """
    waiting, met, numbers = [root], [], {}
    while waiting:
        at = {'printing': -1, 'mirrored': -1, 'breadth': 0}.get(order)
        tree = waiting.pop(dice.below(len(waiting)) if at is None else at)
        if id(tree) in numbers:
            continue
        met.append(tree)
        numbers[id(tree)] = len(met)
        waiting += tree.operands()[::-1 if order == 'printing' else 1]
        if tree is root:
            waiting[0:0] = orphans

    def cell(tree, operand):
        if isinstance(operand, Tree):
            return numbers[id(operand)]
        return {None: 0, 'self': numbers[id(tree)], 'above': len(met) + 1}.get(operand, operand)

    return [Node(FORM_NUMBER.get(tree.form, tree.form), tree.attributes, tree.detail,
                 cell(tree, tree.first), cell(tree, tree.second), tree.symbol) for tree in met]


def plain_nodes(*nodes):
    """Nodes given as name, first and second operand, with labels that are allowed."""
    return [Node(FORM_NUMBER[name], 0, NO if name == 'TypePath' else 0, first, second, 0)
            for name, first, second in nodes]


def numbers_of(nodes, context=0):
    """The numbers of a file: header and nodes."""
    return [context, len(nodes)] + [number for node in nodes for number in node]


def file_of(nodes, context=0):
    """The bytes of a file."""
    return encode(numbers_of(nodes, context))


def respelled(numbers, at, spelling):
    """The bytes of a file with one number spelled otherwise."""
    return encode(numbers[:at]) + spelling + encode(numbers[at + 1:])


def path():
    """The simplest expression."""
    return Tree('Path')


def named():
    """The simplest path type."""
    return Tree('TypePath', detail=NO)


def links(items):
    """The list of these items, None for no items."""
    chain = None
    for item in reversed(items):
        chain = Tree('Link', item, chain)
    return chain


def call(*arguments):
    """A call with these arguments."""
    return Tree('Call', path(), links(arguments))


def cast(to):
    """A cast to a type."""
    return Tree('Cast', path(), to)


def closure(body):
    """A closure with a written output."""
    return Tree('Closure', body, detail=1)


def angle(chain):
    """A path type with that list of type arguments."""
    return Tree('TypePath', None, chain, detail=ANGLE)


def generic(*arguments):
    """A path type with type arguments."""
    return angle(links(arguments))


def leaf_for(place):
    """The least tree that stands in a place."""
    return {
        'nothing': lambda: None,
        'expression': path, 'optional expression': path, 'item': path,
        'type': named, 'optional type': named,
        'expression list': lambda: links([path()]), 'type list': lambda: links([named()]),
        'next link': lambda: links([path()]),
    }[place]()


def bare(name, detail=0, attribute=0, full=False, symbol=0):
    """A node of a form with its required operands, or with all that it may have."""
    tree = Tree(name, attributes=attribute, detail=detail, symbol=symbol)
    tree.first, tree.second = (
        leaf_for(place) if full or place in REQUIRED else None for place in places(name, detail))
    if name == 'Closure' and detail == 1:
        tree.first = Tree('Block')
    return tree


def housed(tree):
    """A tree with an expression for its root that holds the given one."""
    node_class = CLASS_OF.get(tree.form, 'expression')
    return {'expression': lambda: tree, 'type': lambda: cast(tree),
            'link': lambda: Tree('Call', path(), tree)}[node_class]()


INNER = {'expression': [name for name in EXPRESSIONS if name in OPERANDS],
         'type': ['TypePtr', 'TypeReference', 'TypeFnPtr', *SEGMENTED]}
OUTER = {'expression': [name for name in EXPRESSIONS if name not in OPERANDS],
         'type': [name for name in TYPES if name not in OPERANDS]}


def random_node(dice, node_class, inner):
    """A node of a class, with everything but operands."""
    name = dice.pick((INNER if inner else OUTER)[node_class])
    allowed = [detail for detail in details(name) if name not in SEGMENTED or detail > 0]
    if inner and name in SEGMENTED:
        allowed = [ANGLE, PARENTHESISED] if name == 'TypePath' else [PARENTHESISED]
    attribute = dice.pick(attributes(name)) if dice.chance(0.3) else 0
    detail = dice.pick(allowed)
    symbol = random_symbol(dice) if has_symbol(name, detail) and dice.chance(0.7) else 0
    return Tree(name, attributes=attribute, detail=detail, symbol=symbol)


def random_symbol(dice):
    """A symbol of any length."""
    return dice.pick(SYMBOLS) if dice.chance(0.3) else dice.below(dice.pick((128, 16_384, 65_536)))


def random_tree(dice, size, deep=0.5):
    """An accepted tree of that many nodes, seldom fewer.

    Places are filled one after the other, with probability `deep` the latest
    opened one, else any. A place that must be filled counts as a node already.
    """
    open_places = []

    def open_places_of(tree, depth, item_class=None):
        """Opens the places of a node and gives the number of required ones."""
        wanted = places(tree.form, tree.detail)
        if tree.form == 'Link':
            wanted = (item_class, item_class + ' list')
        if tree.form == 'Closure' and tree.detail == 1:
            wanted = ('plain block', 'nothing')
        opened = [(tree, side, place, depth) for side, place in zip(SIDES, wanted)
                  if place != 'nothing']
        open_places.extend(opened)
        return sum(is_required(place) for _, _, place, _ in opened)

    def is_required(place):
        return place in REQUIRED or place == 'plain block'

    def node_for(node_class, room):
        """A node of a class with no more required operands than there is room for,
        and, while it is the only one that can grow, with operands to grow by."""
        only = room > 0 and not open_places
        for _ in range(20):
            tree = random_node(dice, node_class, inner=only or dice.chance(0.7))
            needs = sum(place in REQUIRED for place in places(tree.form, tree.detail))
            ends = tree.form == 'Closure' and tree.detail == 1
            if needs <= room and not (only and ends):
                return tree
        return random_node(dice, node_class, inner=False)

    root = node_for('expression', size - 1)
    total = 1 + open_places_of(root, 1)
    while open_places:
        at = len(open_places) - 1 if dice.chance(deep) else dice.below(len(open_places))
        owner, side, place, depth = open_places.pop(at)
        is_list = place.endswith('list')
        room = size - total - (not is_required(place))
        if not is_required(place) and (room < is_list or depth == 128):
            continue
        total += not is_required(place)
        if is_list:
            tree = Tree('Link')
            total += open_places_of(tree, depth, place.split()[0])
        elif place == 'plain block':
            tree = Tree('Block')
        elif depth == 127:
            tree = random_node(dice, CLASS_WANTED[place], inner=False)
        else:
            tree = node_for(CLASS_WANTED[place], room)
            total += open_places_of(tree, depth + 1)
        setattr(owner, side, tree)
    return root


# ---------------------------------------------------------------------------
# Recording
# ---------------------------------------------------------------------------

Record = namedtuple('Record', 'lent data reply context count cells')


class Recording:
    """The list of records, without repetitions."""

    def __init__(self):
        self.records = []
        self._seen = set()
        self._dice = Dice(1)

    def add(self, data, lent=None, meant=None):
        """Record a file. Without a length, the lent table is long enough if it can be."""
        file = TreeFile(data, self._roomy(data) if lent is None else lent)
        answer = reply(file)
        assert meant is None or answer == meant, \
            f'meant {meant}, by the rules {answer}: lent {file.lent}, {data[:200].hex(" ")}'
        assert len(data) <= LONGEST_RECORDED
        if (file.lent, data) in self._seen:
            return
        self._seen.add((file.lent, data))
        accepted = (file.context, file.count, file.body[0]) if answer == 0 else (0, 0, [])
        self.records.append(Record(file.lent, data, answer, *accepted))

    def add_nodes(self, nodes, context=None, lent=None, meant=None):
        """Record the file of a list of nodes."""
        context = self._dice.below(4) if context is None else context
        self.add(file_of(nodes, context), lent, meant)

    def add_tree(self, tree, order='printing', meant=None, orphans=()):
        """Record the file of a tree."""
        self.add_nodes(nodes_of(tree, order, self._dice, orphans), meant=meant)

    def _roomy(self, data):
        header = read_numbers(data[:16], 0, 2)
        cells = CELLS * header[0][1] if header and header[0][1] <= 4_096 else 0
        return self._dice.pick((cells, cells, cells + 1, cells + self._dice.below(40),
                                max(cells, MOST_CELLS)))

    def write(self, output):
        """Write all records and give the number of bytes."""
        with output.open('wb') as out:
            for record in self.records:
                out.write(struct.pack('<HIHHH', record.lent, len(record.data), record.reply,
                                      record.context, record.count))
                out.write(record.data)
                out.write(struct.pack(f'<{len(record.cells)}H', *record.cells))
            return out.tell()


# ---------------------------------------------------------------------------
# Makers: refusals 1 to 5
# ---------------------------------------------------------------------------

def small_tree():
    """Seven nodes: -a + f(1)."""
    return Tree('Binary', Tree('Unary', path(), detail=2), call(Tree('Lit')))


def wide_tree(count, *ends):
    """A call of so many nodes: a long list of arguments, with these at its end."""
    rest = count - 2 - sum(1 + len(nodes_of(end)) for end in ends)
    tree = call(*[path() for _ in range(rest // 2)], *ends)
    return tree if rest % 2 == 0 else Tree('Unary', tree)


def long_files(recording, dice):
    """Files of 65,536 bytes, which 1 lets pass, and longer ones, to which more applies."""
    valid, cells = file_of(nodes_of(small_tree())), CELLS * len(nodes_of(small_tree()))
    header_of_4096 = encode([0, 4_096])
    starts = [  # start, byte that fills the file, lent cells, reply without 1
        (valid, 0x00, cells, 5),
        (valid[:-1], 0x80, cells, 5),
        (b'', 0x80, MOST_CELLS, 2),
        (b'\x00' + padded(7, 1) + valid[2:], 0x00, cells, 2),
        (encode([4]) + valid[1:], 0x00, cells, 3),
        (encode([0, 0]), 0x00, MOST_CELLS, 4),
        (header_of_4096, 0x00, MOST_CELLS - 1, 4),
        (header_of_4096, 0x00, MOST_CELLS, 5),
    ]
    for start, filler, lent, answer in starts:
        at_the_limit = start.ljust(65_535, bytes([filler])) + b'\x00'
        recording.add(at_the_limit, lent, meant=answer)
        recording.add(at_the_limit + bytes([filler]), lent, meant=1)
    defects = [
        nodes_of(Tree(57)), nodes_of(named()), nodes_of(Tree('Unary', 'self')),
        nodes_of(cast(Tree('TypePath'))), nodes_of(closure(path())), nodes_of(unary_chain(129)),
        nodes_of(Tree('Unary', path(), symbol=1)), nodes_of(wide_tree(4_096))]
    for nodes in defects:
        recording.add(file_of(nodes).ljust(65_537, b'\x00'), CELLS * len(nodes), meant=1)
    for length, filler, lent in ((65_537, 0xFF, 0), (65_538, 0x01, MOST_CELLS), (65_792, 0x00, 0),
                                 (66_000, 0x80, cells), (69_999, 0x00, 0)):
        recording.add(bytes([filler]) * length, lent, meant=1)
    recording.add(valid.ljust(65_537, b'\x00'), cells - 1, meant=1)
    recording.add(valid.ljust(70_000, b'\x00'), cells, meant=1)
    # As many numbers of three bytes as make up 65,536, and one more or fewer.
    for more in (-1, 0, 1):
        wide = [65_535] * (20_478 + more)
        full = header_of_4096 + encode([0] * (MOST_CELLS - len(wide)) + wide)
        recording.add(full, MOST_CELLS, meant=1 if len(full) > 65_536 else 6)
    assert len(header_of_4096 + encode([0] * 4_098 + [65_535] * 20_478)) == 65_535
    # The longest accepted table: operands of two bytes, symbols of three.
    longest = nodes_of(call(*[Tree('Path', symbol=65_535) for _ in range(2_047)]), 'random', dice)
    recording.add_nodes(longest, lent=MOST_CELLS, meant=0)


def headers(recording, dice):
    """Contexts and counts, well and badly spelled, in the header's two places."""
    nodes = nodes_of(small_tree())
    count, body = len(nodes), encode([number for node in nodes for number in node])
    for start in (b'', b'\x00', b'\x01', b'\x03', b'\x04', b'\x7f', b'\x80', b'\xff',
                  b'\x00\x80', b'\x04\x80', b'\x00\xff\xff', b'\x80\x80', b'\x80\x80\x80',
                  b'\x80\x01', b'\x80\x00', b'\x81\x80\x00', b'\x00\x80\x00',
                  b'\x00\x81\x80\x00', b'\x04\x81\x00', b'\x80\x00\x00', b'\xff\xff\x03',
                  b'\xff\xff\x03\x80', b'\xff\xff\x04\x01', b'\x80\x80\x04\x01',
                  b'\x00\xff\xff\x7f', b'\x00\xff\xff\xff\x7f', b'\xff' * 11):
        for lent in (0, MOST_CELLS):
            recording.add(start, lent, meant=2)
    for context in range(4):
        recording.add_nodes(nodes, context, meant=0)
        for spelling in malformed_spellings(context):
            recording.add(spelling + encode([count]) + body, meant=2)
    for context in (0, 3, 4, 128, 65_535):
        for spelling in malformed_spellings(count) + [padded(0, 1), encode([65_536])]:
            recording.add(encode([context]) + spelling + body, meant=2)
    recording.add(padded(0, 1) + padded(count, 1) + body, meant=2)
    recording.add(padded(4, 2) + encode([count]) + body, meant=2)
    for context in (4, 5, 7, 8, 127, 128, 255, 256, 258, 16_383, 16_384, 32_768, 65_535):
        good = encode([context, count]) + body
        cells = CELLS * count
        for data, lent in ((good, cells), (good, cells - 1), (good, 0), (good + b'\x00', cells),
                           (good[:-1], cells + 1), (good[:-1] + b'\x80', cells),
                           (encode([context, count, 57]) + body[1:], MOST_CELLS)):
            recording.add(data, lent, meant=3)
        for other in (0, 1, 4_096, 4_097, 65_535):
            recording.add(encode([context, other]), MOST_CELLS, meant=3)
            recording.add(encode([context, other]) + body, 0, meant=3)


def counts_and_tables(recording, dice):
    """Counts at their limits and lent tables at theirs."""
    for count in (0, 4_097, 4_098, 8_192, 13_107, 32_768, 65_535):
        for lent in (0, CELLS, MOST_CELLS, min(CELLS * count, 65_535), 65_535):
            recording.add(encode([0, count]), lent, meant=4)
            recording.add(encode([1, count, 26, 0, 0, 0, 0, 0]), lent, meant=4)
    for size in (1, 2, 3, 7, 26, 52):
        nodes = nodes_of(random_tree(dice, size))
        cells, data = CELLS * len(nodes), file_of(nodes, dice.below(4))
        for lent in (cells, cells + 1, cells + 5, cells + 6, MOST_CELLS, MOST_CELLS + 1, 65_535):
            recording.add(data, lent, meant=0)
        for lent in (cells - 1, cells - 5, cells - 6, 5 * len(nodes), len(nodes), 0):
            recording.add(data, lent, meant=4)
            for damaged in (data + b'\x00', data[:-1], data[:-1] + b'\x80', data[:2],
                            data[:2] + b'\x39' + data[3:], data[:2] + padded(data[2], 1)):
                recording.add(damaged, lent, meant=4)
    for data in (encode([0, 1]), encode([2, 1, 26]), encode([3, 4_096])):
        recording.add(data, MOST_CELLS, meant=5)
    for count, lent, answer in ((4_095, MOST_CELLS - 6, 0), (4_095, MOST_CELLS - 7, 4),
                                (4_096, MOST_CELLS, 0), (4_096, MOST_CELLS - 1, 4),
                                (4_096, 20_480, 4), (4_097, MOST_CELLS, 4),
                                (4_097, MOST_CELLS + 6, 4), (4_097, 65_535, 4)):
        nodes = nodes_of(wide_tree(count))
        assert len(nodes) == count
        recording.add_nodes(nodes, lent=lent, meant=answer)


def body_numbers(recording, dice):
    """Badly spelled numbers in the body: each of the six places, first, middle and last node."""
    nodes = nodes_of(small_tree())
    numbers = numbers_of(nodes, context=2)
    worse = [numbers_of([Node(57, 3, 9, 0, 9, 7)] + nodes[1:]),
             numbers_of([nodes[0]._replace(second=0)] + nodes[1:])]
    for node in (1, 4, len(nodes)):
        for place in range(CELLS):
            at = 2 + CELLS * (node - 1) + place
            for spelling in malformed_spellings(numbers[at]):
                recording.add(respelled(numbers, at, spelling), meant=5)
            for other in worse:
                recording.add(respelled(other, at, padded(other[at], 1)), meant=5)
            for value in (0, 127, 128, 255, 256, 16_383, 16_384, 65_280, 65_534, 65_535):
                recording.add(respelled(numbers, at, encode([value])))
    large = numbers_of(nodes_of(wide_tree(300), 'random', dice))
    for at in (2, 5, 700, 1_000, 1_799, 1_800, 1_801):
        recording.add(respelled(large, at, padded(large[at], 1)), meant=5)


def cut_files(recording, dice):
    """Every beginning of some files."""
    for nodes in (nodes_of(small_tree()), nodes_of(path()), nodes_of(random_tree(dice, 6)),
                  [Node(65_535, 128, 16_384, 300, 65_535, 16_384)] * 2):
        data = file_of(nodes, 1)
        for length in range(len(data)):
            recording.add(data[:length], CELLS * len(nodes), meant=2 if length < 2 else 5)
    data = file_of(nodes_of(wide_tree(300)), 3)
    for length in (1, 2, 3, 4, 150, 151, len(data) - 8, len(data) - 3, len(data) - 1):
        recording.add(data[:length], CELLS * 300, meant=2 if length < 3 else 5)


def trailing_bytes(recording, dice):
    """Bytes behind the last number."""
    behind = (b'\x00', b'\x01', b'\x7f', b'\x80', b'\xff', b'\x00\x00', b'\x80\x00', b'\x80\x01',
              bytes(6), encode([26, 0, 0, 0, 0, 0]), b'\xff' * 40, bytes(300))
    for tree in (path(), small_tree(), random_tree(dice, 40), Tree(0), Tree('Lit', detail=1),
                 named(), Tree('Unary', 'self'), cast(Tree('TypeImplTrait')),
                 closure(path())):
        data = file_of(nodes_of(tree), dice.below(4))
        for tail in behind:
            recording.add(data + tail, meant=5)


# ---------------------------------------------------------------------------
# Makers: refusals 6 to 11
# ---------------------------------------------------------------------------

def labels(recording, dice):
    """Every form with every detail and attribute number, and the numbers one above."""
    for name in FORMS:
        least = 1 if name in SEGMENTED else 0
        for full in (False, True):
            for detail in details(name):
                missing = name in SEGMENTED and detail == 0
                recording.add_tree(housed(bare(name, detail, 0, full)), meant=9 if missing else 0)
            for attribute in attributes(name):
                recording.add_tree(housed(bare(name, least, attribute, full)), meant=0)
        for detail in (len(details(name)), len(details(name)) + 1, 256, 32_768, 65_535):
            recording.add_tree(housed(bare(name, detail)), meant=6)
        for attribute in (len(attributes(name)), 2, 3, 4, 256, 65_535):
            if attribute not in attributes(name):
                recording.add_tree(housed(bare(name, least, attribute)), meant=6)
    for form in (0, 57, 58, 64, 127, 128, 255, 256, 256 + FORM_NUMBER['Path'], 32_768, 65_535):
        for tree in (Tree(form), Tree('Unary', Tree(form)), cast(Tree(form)), call(Tree(form)),
                     call(path(), Tree(form), path()), Tree('Call', path(), Tree(form)),
                     Tree('Cast', path(), Tree(form, named()))):
            recording.add_tree(tree, dice.pick(ORDERS), meant=6)


def symbols(recording, dice):
    """A symbol of every length at every form, and at every place of a tree."""
    for name in FORMS:
        for detail in details(name):
            missing = name in SEGMENTED and detail == 0
            for symbol in SYMBOLS:
                meant = 0 if has_symbol(name, detail) else 6
                recording.add_tree(housed(bare(name, detail, full=True, symbol=symbol)),
                                   dice.pick(ORDERS), meant)
            recording.add_tree(housed(bare(name, detail)), meant=9 if missing else 0)
    # 6 comes before 7 to 11, and after 5.
    for tree in (Tree('Unary', symbol=1), Tree('Unary', 'self', symbol=1),
                 cast(Tree('TypePath', symbol=1)), Tree('Closure', path(), detail=1, symbol=1),
                 Tree('Unary', unary_chain(130), symbol=1),
                 Tree('Call', path(), Tree('Link', named(), symbol=7))):
        recording.add_tree(tree, meant=6)
        recording.add(file_of(nodes_of(tree)) + b'\x00', meant=5)
    for _ in range(60):
        nodes = nodes_of(random_tree(dice, dice.between(2, 40)), dice.pick(ORDERS), dice)
        at = dice.below(len(nodes))
        meant = 0 if has_symbol(nodes[at].name, nodes[at].detail) else 6
        nodes[at] = nodes[at]._replace(symbol=random_symbol(dice) or 1)
        recording.add_nodes(nodes, meant=meant)


def older_files(recording, dice):
    """Files of five numbers a node: what their numbers say."""
    for least, most, how_many in ((1, 3, 20), (4, 60, 40)):
        for _ in range(how_many):
            nodes = nodes_of(random_tree(dice, dice.between(least, most)), dice.pick(ORDERS), dice)
            numbers = [number for node in nodes for number in node[:5]]
            recording.add(encode([dice.below(4), len(nodes)] + numbers), meant=5)


def operands(recording, dice):
    """Every form with everything that can be in each of its places."""
    contents = (
        lambda: None, path, named, lambda: links([path()]), lambda: links([named()]),
        lambda: 'self', lambda: 'above', lambda: 1, lambda: 65_535)
    for name in FORMS:
        shaping = name in SEGMENTED or name == 'Closure'
        for detail in details(name) if shaping else (0,):
            has_optional = not set(places(name, detail)) <= {'expression', 'type', 'nothing'}
            for side, place in zip(SIDES, places(name, detail)):
                for full in (False, True) if has_optional else (False,):
                    for content in contents:
                        tree = bare(name, detail, 0, full)
                        setattr(tree, side, content())
                        meant = 7 if place == 'nothing' and content() is not None else None
                        recording.add_tree(housed(tree), dice.pick(ORDERS), meant)
                        recording.add_tree(Tree('Paren', housed(tree)), dice.pick(ORDERS), meant)
            both = bare(name, detail)
            both.first, both.second = path(), path()
            recording.add_tree(housed(both), dice.pick(ORDERS))
    for root in (named(), Tree('TypeNever'), Tree('TypePtr', named()), links([path()]),
                 links([named(), named()])):
        recording.add_tree(root, meant=7)
        recording.add_nodes(nodes_of(root) + nodes_of(path()), meant=7)


def list_chains(good, bad):
    """What may stand where a list of good items is wanted, with the reply to it.

    Given as functions, since each tree is used once.
    """
    def of_items(*items):
        """The list of items that are numbers or functions."""
        return lambda: links([item() if callable(item) else item for item in items])

    for length in (0, 1, 2, 3, 7, 30):
        yield of_items(*[good] * length), 0
    for length in (1, 2, 3, 9):
        for at in sorted({0, 1, length // 2, length - 1} & set(range(length))):
            before, behind = [good] * at, [good] * (length - 1 - at)
            for item, meant in ((bad, 7), (of_items(good), 7), (None, 7), ('above', 8),
                                (65_535, 8)):
                yield of_items(*before, item, *behind), meant
    yield of_items(bad, bad, bad), 7
    yield of_items(good, bad, good), 7
    # An item above the count parts what lies on its two sides: the rule is local.
    yield of_items('above', bad), 8
    yield of_items(good, 'above', bad), 8
    yield of_items('above', good, bad), 7
    yield of_items(bad, 'above'), 7
    for end, meant in ((path, 7), (named, 7), (lambda: Tree('Unary', path()), 7),
                       (lambda: Tree('TypePtr', named()), 7), (lambda: 1, 7),
                       (lambda: 'self', 8), (lambda: 'above', 8), (lambda: 65_535, 8)):
        yield lambda end=end: Tree('Link', good(), end()), meant
        yield lambda end=end: Tree('Link', good(), Tree('Link', good(), end())), meant
    for chain, meant in ((path, 7), (named, 7), (lambda: 'self', 7), (lambda: 1, 7),
                         (lambda: 'above', 8), (lambda: 65_535, 8)):
        yield chain, meant


def lists(recording, dice):
    """Lists of every shape, whole and broken."""
    owners = (
        (path, named, lambda chain: Tree('Call', path(), chain)),
        (path, named, lambda chain: Tree('MethodCall', path(), chain)),
        (path, named, lambda chain: Tree('Paren', Tree('MethodCall', call(path()), chain))),
        (named, path, lambda chain: cast(angle(chain))),
        (named, path, lambda chain: cast(Tree('TypePtr', angle(chain)))),
        (named, path, lambda chain: cast(generic(angle(chain)))))
    for good, bad, owner in owners:
        for chain, meant in list_chains(good, bad):
            for order in ORDERS:
                recording.add_tree(owner(chain()), order, meant)
        recording.add_tree(owner(links([good() for _ in range(150)])), 'random', meant=0)
    for items, meant in (([path()], 8), ([path(), path()], 8), ([named(), named()], 8),
                         ([path(), named()], 7), ([named(), path()], 7), ([path(), None], 7),
                         ([None], 7), ([links([path()])], 7), (['above', path()], 8),
                         (['above', None], 7), (['above', links([named()])], 7)):
        recording.add_tree(path(), meant=meant, orphans=[links(items)])
        recording.add_tree(small_tree(), 'random', meant=meant, orphans=[links(items)])
    for shared, meant in ((path, 7), (named, 7), (lambda: 'above', 8)):
        tail = links([shared()])
        two_lists = Tree('Binary', Tree('Call', path(), Tree('Link', path(), tail)),
                         cast(angle(Tree('Link', named(), tail))))
        recording.add_tree(two_lists, meant=meant)
        whole_list = Tree('Binary', Tree('Call', path(), tail),
                          cast(angle(tail)))
        recording.add_tree(whole_list, meant=meant)
    tail = links([path()])
    recording.add_tree(Tree('Binary', Tree('Call', path(), tail), Tree('Call', path(), tail)),
                       'breadth', meant=8)
    for item, meant in (('Path', 8), ('TypeNever', 7)):
        # A call whose list comes before it, with an item of either class.
        recording.add_nodes(plain_nodes(('Unary', 4, 0), ('Link', 3, 0), (item, 0, 0),
                                        ('Call', 5, 2), ('Path', 0, 0)), meant=meant)


def ownership(recording, dice):
    """Refusal 8 where every class is right."""
    for nodes in (
            plain_nodes(('Unary', 1, 0)),
            plain_nodes(('Break', 1, 0)),
            plain_nodes(('Range', 0, 1)),
            plain_nodes(('Unary', 2, 0)),
            plain_nodes(('Unary', 65_535, 0)),
            plain_nodes(('Binary', 2, 2), ('Path', 0, 0)),
            plain_nodes(('Range', 2, 2), ('Path', 0, 0)),
            plain_nodes(('Binary', 2, 3), ('Path', 0, 0)),
            plain_nodes(('Binary', 3, 2), ('Path', 0, 0)),
            plain_nodes(('Binary', 2, 1), ('Path', 0, 0)),
            plain_nodes(('Path', 0, 0), ('Path', 0, 0)),
            plain_nodes(('Break', 0, 0), ('Path', 0, 0)),
            plain_nodes(('Path', 0, 0), ('TypeNever', 0, 0)),
            plain_nodes(('Path', 0, 0), ('Unary', 2, 0)),
            plain_nodes(('Path', 0, 0), ('Unary', 1, 0)),
            plain_nodes(('Unary', 2, 0), ('Unary', 1, 0)),
            plain_nodes(('Unary', 2, 0), ('Break', 1, 0)),
            plain_nodes(('Path', 0, 0), ('Unary', 3, 0), ('Unary', 2, 0)),
            plain_nodes(('Unary', 3, 0), ('Path', 0, 0), ('Unary', 2, 0)),
            plain_nodes(('Unary', 3, 0), ('Path', 0, 0), ('Path', 0, 0)),
            plain_nodes(('Unary', 2, 0), ('Path', 0, 0), ('Path', 0, 0)),
            plain_nodes(('Unary', 2, 0), ('Break', 2, 0)),
            plain_nodes(('Path', 0, 0), ('Link', 3, 2), ('Path', 0, 0)),
            plain_nodes(('Call', 2, 3), ('Path', 0, 0), ('Link', 4, 3), ('Path', 0, 0)),
            plain_nodes(('Call', 2, 3), ('Path', 0, 0), ('Link', 2, 0)),
            plain_nodes(('Call', 2, 3), ('Path', 0, 0), ('Link', 1, 0)),
            plain_nodes(('Binary', 2, 3), ('Unary', 4, 0), ('Unary', 4, 0), ('Path', 0, 0)),
            plain_nodes(('Binary', 2, 3), ('Unary', 4, 0), ('Unary', 2, 0), ('Path', 0, 0)),
            plain_nodes(('Binary', 2, 3), ('Binary', 5, 5), ('Unary', 5, 0), ('Path', 0, 0),
                 ('Path', 0, 0), ('Path', 0, 0)),
            plain_nodes(('Cast', 2, 3), ('Path', 0, 0), ('TypePtr', 3, 0)),
            plain_nodes(('Cast', 2, 4), ('Path', 0, 0), ('TypeNever', 0, 0), ('TypePtr', 3, 0)),
            plain_nodes(('Cast', 2, 3), ('Path', 0, 0), ('TypePath', 0, 0), ('TypePath', 0, 0))):
        for context in range(2):
            recording.add_nodes(nodes, context, meant=8)
    for times in (2, 3, 256, 257):
        # A list whose links all have the last node for their item.
        last = times + 3
        nodes = plain_nodes(('Call', 2, 3), ('Path', 0, 0),
                     *[('Link', last, at + 1 if at + 1 < last else 0) for at in range(3, last)],
                     ('Path', 0, 0))
        recording.add_nodes(nodes, meant=8)
    for _ in range(150):
        tree = random_tree(dice, dice.between(5, 40), dice.pick((0.2, 0.8)))
        nodes = nodes_of(tree, dice.pick(ORDERS), dice)
        recording.add_nodes(rewired(nodes, dice), meant=8)
        recording.add_nodes(renumbered(nodes, dice), meant=8)
        orphan = dice.pick((path(), cast(named()), named(), links([path()]), Tree('Break')))
        recording.add_tree(tree, dice.pick(ORDERS), meant=8, orphans=[orphan])
    for _ in range(60):
        # An optional place takes a node that another owns already.
        tree = random_tree(dice, dice.between(3, 20))
        for owner in (Tree('Return', tree.operands()[0]), Tree('Range', None, tree.operands()[0])):
            if CLASS_OF[tree.operands()[0].form] == 'expression':
                recording.add_tree(Tree('Binary', owner, tree), dice.pick(ORDERS), meant=8)


def rewired(nodes, dice):
    """The nodes with one operand changed to another number that is of the same class."""
    def kind(at):
        node = nodes[at - 1]
        item = nodes[node.first - 1].node_class if node.name == 'Link' else None
        return node.node_class, item

    owners = [(owner, place) for owner, node in enumerate(nodes) for place in SIDES
              if getattr(node, place)]
    owner, place = dice.pick(owners)
    old = getattr(nodes[owner], place)
    same = [at for at in range(1, len(nodes) + 1) if at != old and kind(at) == kind(old)]
    new = dice.pick(same + [len(nodes) + 1, 65_535])
    return [node._replace(**{place: new}) if at == owner else node
            for at, node in enumerate(nodes)]


def renumbered(nodes, dice):
    """The same tree with node 1 in its place and some owner's number above an operand's."""
    while True:
        order = [0] + dice.shuffled(range(1, len(nodes)))
        new = {0: 0, **{old + 1: at for at, old in enumerate(order, 1)}}
        moved = [nodes[old]._replace(first=new[nodes[old].first], second=new[nodes[old].second])
                 for old in order]
        if any(operand <= at for at, node in enumerate(moved, 1) for operand in node.present):
            return moved
        if not any(node.present for node in nodes[1:]):
            return [nodes[0]._replace(first=1), *nodes[1:]]


def segments_and_bounds(recording, dice):
    """Path types without a segment and bound lists without a bound, at every kind of place."""
    for name in SEGMENTED:
        houses = (
            lambda: cast(Tree(name)),
            lambda: cast(Tree('TypePtr', Tree(name))),
            lambda: cast(Tree('TypeFnPtr', Tree(name))),
            lambda: cast(Tree('TypePath', Tree(name), detail=PARENTHESISED)),
            lambda: cast(Tree('TypeTraitObject', Tree(name), detail=PARENTHESISED)),
            lambda: cast(generic(Tree(name))),
            lambda: cast(generic(named(), Tree('TypeNever'), Tree(name))),
            lambda: cast(generic(Tree(name), named())),
            lambda: call(path(), cast(Tree(name))),
            lambda: Tree('Binary', cast(Tree('TypeReference', Tree(name))), small_tree()),
            lambda: Tree('Binary', closure(Tree('Block', attributes=1)), cast(Tree(name))))
        for house in houses:
            for order in ORDERS:
                recording.add_tree(house(), order, meant=9)
        for side in SIDES:
            for content in (named(), path(), links([named()]), 'above', 'self'):
                tree = Tree(name)
                setattr(tree, side, content)
                recording.add_tree(cast(tree), meant=7)


def closures(recording, dice):
    """Closures with and without a written output over every form, attributes and label."""
    shells = (lambda tree: tree, lambda tree: call(path(), tree),
              lambda tree: Tree('Binary', tree, path(), detail=17))
    for name in EXPRESSIONS:
        for shell in shells:
            order = dice.pick(ORDERS)
            recording.add_tree(shell(closure(bare(name))), order, 0 if name == 'Block' else 10)
            recording.add_tree(shell(Tree('Closure', bare(name))), order, meant=0)
    for attribute in attributes('Block'):
        for detail in details('Block'):
            plain = attribute == 0 and detail == 0
            for own in attributes('Closure'):
                body = Tree('Block', attributes=attribute, detail=detail)
                written = Tree('Closure', body, detail=1, attributes=own)
                for tree in (written, Tree('Return', written), Tree('Call', path(), links(
                        [closure(Tree('Block')), written, closure(Tree('Block'))]))):
                    recording.add_tree(tree, dice.pick(ORDERS), meant=0 if plain else 10)
                recording.add_tree(Tree('Closure', body, attributes=own), meant=0)
    for tree, meant in (
            (closure(Tree('Paren', Tree('Block'))), 10),
            (closure(Tree('Group', Tree('Block'))), 10),
            (closure(closure(Tree('Block'))), 10), (closure(Tree('Closure', Tree('Block'))), 10),
            (Tree('Closure', closure(Tree('Block'))), 0), (Tree('Closure', closure(path())), 10),
            (closure(Tree('Unsafe')), 10), (closure(None), 7), (closure(named()), 7),
            (closure(links([path()])), 7), (closure('self'), 8), (closure('above'), 8),
            (closure(1), 8), (closure(Tree('TypeMacro', detail=2)), 7)):
        recording.add_tree(tree, meant=meant)
        recording.add_tree(Tree('Paren', tree), meant=meant)


def ways(node_class):
    """All ways on which a path goes on in a class: form, detail and place."""
    return [(name, detail, side)
            for name in (EXPRESSIONS if node_class == 'expression' else TYPES)
            for detail in (range(1, len(details(name))) if name in SEGMENTED else (0,))
            for side, place in zip(SIDES, places(name, detail))
            if place.replace('optional ', '').replace(' list', '') == node_class]


def step(way, below):
    """One more node on a path, above a tree."""
    name, detail, side = way
    tree = bare(name, detail)
    in_list = CLASS_WANTED[places(name, detail)[side == 'second']] == 'link'
    setattr(tree, side, links([below]) if in_list else below)
    return tree


def steps(chosen, how_many, below):
    """So many nodes more on a path, by these ways in turn, above a tree."""
    for at in range(how_many):
        below = step(chosen[at % len(chosen)], below)
    return below


UNARY = ('Unary', 0, 'first')


def unary_chain(length):
    """A path of so many nodes, no node beside it."""
    return steps([UNARY], length - 1, path())


def depths(recording, dice):
    """Paths of exactly 128 and 129 nodes, by every way."""
    argument, right, left = ('Call', 0, 'second'), ('Binary', 0, 'second'), ('Binary', 0, 'first')
    pointer, in_angles = ('TypePtr', 0, 'first'), ('TypePath', ANGLE, 'second')
    expression_ways, type_ways = ways('expression'), ways('type')
    assert len(expression_ways) == 26 and len(type_ways) == 7

    def both(make):
        """Both lengths of a path, in some order: make(n) is a tree with a path of n."""
        for length, meant in ((128, 0), (129, 11)):
            recording.add_tree(make(length), dice.pick(ORDERS), meant)

    for way in expression_ways:
        both(lambda length: steps([way], length - 1, path()))
    for way in type_ways:
        both(lambda length: cast(steps([way], length - 2, named())))
        both(lambda length: steps([right, UNARY], 60, cast(steps([way], length - 62, named()))))
    for name in EXPRESSIONS:
        recording.add_tree(steps([UNARY], 128, bare(name)), meant=11)
    for name in TYPES:
        bottom = bare(name, NO if name in SEGMENTED else 0)
        recording.add_tree(steps([UNARY], 126, cast(Tree('TypePtr', bottom))), meant=11)
    for _ in range(6):
        mixed = dice.shuffled(expression_ways)
        both(lambda length: steps(mixed, length - 1, Tree('Lit')))
        kinds = dice.shuffled(type_ways)
        both(lambda length: steps(mixed, 90, cast(steps(kinds, length - 92, Tree('TypeNever')))))
    for order in ORDERS:
        for length, meant in ((127, 0), (128, 0), (129, 11), (130, 11), (200, 11)):
            recording.add_tree(unary_chain(length), order, meant)
            recording.add_tree(steps([left, right], length - 1, path()), order, meant)
    # Two long paths; the longer one first, last, in either place.
    for one, other in ((128, 128), (128, 127), (129, 128), (128, 129), (20, 129), (129, 1)):
        meant = 11 if 129 in (one, other) else 0
        recording.add_tree(
            Tree('Binary', unary_chain(one - 1), unary_chain(other - 1)), meant=meant)
        recording.add_tree(call(unary_chain(one - 1), path(), unary_chain(other - 1)),
                           dice.pick(ORDERS), meant)
    # Links are not counted: items at the ends of long lists.
    for items, above in ((2, 126), (130, 1), (130, 60), (200, 126)):
        def with_list(length, way, item):
            beside = [path() for _ in range(items - 1)]
            return steps([way], above, call(*beside, steps([argument], length - above - 2, item)))
        both(lambda length: with_list(length, UNARY, path()))
        both(lambda length: with_list(length, argument, path()))
    for items in (130, 300):
        both(lambda length: steps([UNARY], 50, cast(generic(
            *[named() for _ in range(items)], steps([pointer, in_angles], length - 53, named())))))
    both(lambda length: steps([UNARY], length - 2, call(*[path() for _ in range(1_900)])))
    for length in (2, 127, 128):
        recording.add_tree(steps([('MethodCall', 0, 'second')], length - 1, path()), meant=0)
    # Many nodes and short paths; a long path at the end of a long list.
    recording.add_tree(call(*[unary_chain(100) for _ in range(8)]), 'random', meant=0)
    recording.add_tree(call(*[unary_chain(3) for _ in range(40)], unary_chain(127)), meant=0)
    recording.add_tree(call(*[unary_chain(3) for _ in range(40)], unary_chain(128)), meant=11)
    recording.add_tree(call(unary_chain(128), *[unary_chain(3) for _ in range(40)]), meant=11)


# ---------------------------------------------------------------------------
# Makers: several refusals at once
# ---------------------------------------------------------------------------

# Expressions to which one refusal applies, wherever they stand.
DEFECTS = {
    6: (lambda: Tree(57), lambda: Tree(0), lambda: Tree(65_535), lambda: Tree('Lit', detail=1),
        lambda: Tree('Path', attributes=3), lambda: Tree('Verbatim', attributes=1),
        lambda: Tree('Verbatim', detail=2), lambda: cast(Tree('TypeNever', attributes=1)),
        lambda: cast(Tree('TypePath', detail=4)), lambda: cast(Tree('TypeImplTrait', detail=8)),
        lambda: Tree('Binary', path(), path(), detail=28),
        lambda: Tree('Call', path(), Tree('Link', path(), attributes=2)),
        lambda: Tree('Reference', path(), symbol=1), lambda: Tree('Await', path(), symbol=65_535),
        lambda: cast(Tree('TypeNever', symbol=128)), lambda: cast(Tree('TypePath', symbol=1)),
        lambda: Tree('Call', path(), Tree('Link', path(), symbol=16_384))),
    7: (lambda: Tree('Unary'), lambda: Tree('Path', 1), lambda: Tree('Lit', 'above'),
        lambda: Tree('Reference', named()), lambda: Tree('Binary', path()),
        lambda: Tree('Cast', path(), path()), lambda: call(path(), named()), lambda: call(named()),
        lambda: Tree('Call', path(), path()), lambda: Tree('Return', path(), path()),
        lambda: cast(Tree('TypePtr', path())), lambda: cast(generic(path())),
        lambda: cast(Tree('TypeNever', named())), lambda: Tree('Paren', links([path()])),
        lambda: call(None), lambda: Tree('Struct', None, path())),
    8: (lambda: Tree('Unary', 'self'), lambda: Tree('Unary', 'above'), lambda: Tree('Unary', 1),
        lambda: Tree('Break', 65_535), lambda: Tree('Range', None, 1),
        lambda: Tree('Call', path(), 'above'), lambda: call('above'), lambda: call(1),
        lambda: cast('above'), lambda: cast(Tree('TypePtr', 'self')),
        lambda: Tree('Call', path(), Tree('Link', path(), 'self')),
        lambda: Tree('Binary', *[path()] * 2), lambda: Tree('Range', *[path()] * 2),
        lambda: closure(1)),
    9: tuple([lambda name=name: cast(Tree(name)) for name in SEGMENTED]
             + [lambda name=name: cast(Tree('TypePtr', Tree(name))) for name in SEGMENTED]
             + [lambda name=name: cast(generic(named(), Tree(name))) for name in SEGMENTED]),
    10: (lambda: closure(path()), lambda: closure(Tree('Block', attributes=1)),
         lambda: closure(Tree('Block', attributes=2)), lambda: closure(Tree('Block', detail=1)),
         lambda: closure(Tree('Paren', Tree('Block'))), lambda: closure(Tree('Unsafe'))),
    11: (lambda: unary_chain(129), lambda: steps([('Call', 0, 'second')], 128, path()),
         lambda: cast(steps([('TypePtr', 0, 'first')], 128, named())),
         lambda: steps([('Binary', 5, 'first'), ('Paren', 0, 'first')], 128, path())),
}


def holding(parts, dice):
    """An expression that holds these expressions in this order, some others between them."""
    style = dice.below(4)
    if style == 0:
        tree = parts[-1]
        for part in reversed(parts[:-1]):
            tree = Tree('Binary', part, Tree('Paren', tree))
        return Tree('Group', tree)
    if style == 1:
        tree = parts[0]
        for part in parts[1:]:
            tree = Tree('Index', tree, part)
        return Tree('Return', tree)
    items = []
    for part in parts:
        items += [random_tree(dice, dice.between(1, 6)) for _ in range(dice.below(3))] + [part]
    return Tree(dice.pick(('Call', 'MethodCall')), path(), links(items))


def broken_file(refusals, dice):
    """A file and a lent length to which these refusals apply, all from 2 to 11."""
    orphans = [path()] if 8 in refusals and dice.chance(0.3) else []
    parts = [dice.pick(DEFECTS[refusal])() for refusal in refusals
             if refusal in DEFECTS and not (refusal == 8 and orphans)]
    tree = holding(parts or [small_tree()], dice)
    nodes = nodes_of(tree, dice.pick(ORDERS[:2] + ORDERS), dice, orphans)
    numbers = numbers_of(nodes, dice.below(4))
    lent, tail, spellings = CELLS * len(nodes), b'', {}
    if 3 in refusals:
        numbers[0] = dice.pick((4, 5, 127, 128, 256, 65_535))
    if 4 in refusals and dice.chance(0.5):
        numbers[1] = dice.pick((0, 4_097, 65_535))
    elif 4 in refusals:
        lent -= dice.between(1, CELLS)
    if 5 in refusals and dice.chance(0.4):
        tail = dice.pick((b'\x00', b'\x80', b'\xff\x01', bytes(7)))
    elif 5 in refusals:
        at = dice.pick((2, len(numbers) - 1, dice.between(2, len(numbers) - 1)))
        spellings[at] = dice.pick(malformed_spellings(numbers[at]))
    if 2 in refusals:
        at = dice.below(2)
        spellings[at] = dice.pick(malformed_spellings(numbers[at]))
    data = b''.join(spellings.get(at, encode([value])) for at, value in enumerate(numbers)) + tail
    return data, lent


def pairs(recording, dice):
    """Files to which several refusals apply, mostly at different nodes, in either order."""
    for low in range(2, 12):
        for high in range(low + 1, 12):
            for _ in range(12 if high == low + 1 else 4):
                for refusals in ((low, high), (high, low)):
                    recording.add(*broken_file(refusals, dice), meant=low)
    for _ in range(300):
        refusals = dice.shuffled(range(2, 12))[:dice.between(3, 6)]
        recording.add(*broken_file(refusals, dice), meant=min(refusals))
    for _ in range(100):
        refusals = dice.shuffled(range(6, 12))[:dice.between(2, 6)]
        recording.add(*broken_file(refusals, dice), meant=min(refusals))
    for refusal in DEFECTS:
        for defect in DEFECTS[refusal]:
            recording.add_tree(holding([defect()], dice), dice.pick(ORDERS), meant=refusal)
            recording.add_tree(call(small_tree(), defect()), meant=refusal)


def same_node(recording, dice):
    """Several refusals at one node."""
    for tree, meant in (
            (Tree('Path', path(), detail=1), 6), (Tree('Unary', detail=3), 6),
            (Tree('Verbatim', named(), attributes=1), 6), (Tree(57, 'self'), 6),
            (cast(Tree('TypePath', attributes=1)), 6),
            (cast(Tree('TypePath', 'self', detail=4)), 6),
            (cast(Tree('TypeImplTrait', detail=0, attributes=2)), 6),
            (Tree('Unary', symbol=1), 6), (Tree('Path', symbol=1, attributes=3), 6),
            (closure(Tree('Block', symbol=1)), 6), (closure(Tree('Lit', symbol=1)), 10),
            (closure(Tree('Block', attributes=3)), 6), (closure(Tree('Block', detail=2)), 6),
            (Tree('Closure', path(), detail=2), 6), (Tree('Closure', detail=2), 6),
            (Tree('TypePath'), 7), (Tree('TypePath', detail=NO), 7), (Tree('Link'), 7),
            (cast(Tree('TypePath', None, named())), 7), (cast(Tree('TypePath', 'above')), 7),
            (cast(Tree('TypePath', 'self', detail=NO)), 7),
            (cast(Tree('TypeTraitObject', named(), detail=ANGLE)), 7),
            (cast(Tree('TypeImplTrait', None, links([named()]), detail=ANGLE)), 7),
            (cast(Tree('TypePath', named(), links([named()]), detail=ANGLE)), 7),
            (cast(Tree('TypePath', named(), named(), detail=PARENTHESISED)), 7),
            (Tree('Unary', 'above', 'above'), 7), (Tree('Binary', 'above'), 7),
            (Tree('Binary', 'above', named()), 7), (Tree('Cast', 'self', 'self'), 7),
            (Tree('Unary', 'self', 'self'), 7), (Tree('Break', None, 'above'), 7),
            (Tree('Binary', 'self', 'above'), 8), (Tree('Cast', 'self', 'above'), 8),
            (Tree('Range', 'above', 'self'), 8), (closure('above'), 8), (closure('self'), 8),
            (closure(cast(Tree('TypePath'))), 9), (closure(unary_chain(200)), 10),
            (cast(steps([('TypePtr', 0, 'first')], 150, Tree('TypePath'))), 9),
            (steps([UNARY], 150, closure(path())), 10),
            (steps([UNARY], 127, closure(Tree('Block'))), 11),
            (steps([UNARY], 126, closure(Tree('Block'))), 0)):
        recording.add_tree(tree, meant=meant)


# ---------------------------------------------------------------------------
# Makers: accepted files and damaged copies
# ---------------------------------------------------------------------------

def accepted_trees(recording, dice):
    """Accepted trees of all forms under all kinds of numbering."""
    # The file of document 01's listing, `(a + b) * c`, with a 0 more for each node.
    recording.add(bytes([0, 5, 5, 0, 2, 2, 3, 0, 5, 0, 0, 4, 5, 0] + [26, 0, 0, 0, 0, 0] * 3),
                  meant=0)
    for least, most, how_many in ((1, 3, 40), (2, 12, 150), (13, 80, 150), (81, 420, 45)):
        for at in range(how_many):
            tree = random_tree(dice, dice.between(least, most), dice.pick((0.1, 0.5, 0.8, 0.97)))
            order = 'random' if at % 3 else ORDERS[at // 3 % 4]
            recording.add_tree(tree, order, meant=0)
    tree = random_tree(dice, 60)
    for order in ORDERS * 2:
        for context in range(4):
            recording.add_nodes(nodes_of(tree, order, dice), context, meant=0)


def largest_trees(recording, dice):
    """Trees of 4,096 nodes in several shapes, and some with a defect at the last nodes."""
    def balanced(levels):
        return path() if levels == 1 else Tree('Binary', balanced(levels - 1), balanced(levels - 1),
                                               detail=levels)

    shapes = (
        nodes_of(Tree('Unary', balanced(12)), 'random', dice),
        nodes_of(Tree('Unary', cast(generic(*[named() for _ in range(2_046)]))), 'mirrored'),
        nodes_of(call(*[unary_chain(127) for _ in range(31)], *[unary_chain(32) for _ in range(3)],
                      unary_chain(21), unary_chain(2), Tree('Break')), 'breadth'),
        nodes_of(random_tree(dice, 4_096, 0.3), 'random', dice),
        nodes_of(random_tree(dice, 4_096, 0.05), 'printing'))
    for nodes in shapes:
        assert len(nodes) == 4_096, len(nodes)
        recording.add_nodes(nodes, meant=0)
    for defect, meant in ((Tree(57), 6), (Tree('Path', 'above'), 7), (named(), 7),
                          (Tree('Unary', 'above'), 8), (Tree('Unary', 'self'), 8),
                          (cast(Tree('TypePath')), 9), (closure(path()), 10),
                          (unary_chain(128), 11)):
        nodes = nodes_of(wide_tree(4_096, defect))
        assert len(nodes) == 4_096, len(nodes)
        recording.add_nodes(nodes, meant=meant)


def damaged_copies(recording, dice):
    """Copies of accepted files with one thing changed, whatever the rules say of them."""
    def byte_changed(data, numbers):
        at = dice.below(len(data))
        return data[:at] + bytes([dice.below(256)]) + data[at + 1:]

    def bit_changed(data, numbers):
        at = dice.below(len(data))
        return data[:at] + bytes([data[at] ^ 1 << dice.below(8)]) + data[at + 1:]

    def bytes_removed(data, numbers):
        at = dice.below(len(data))
        return data[:at] + data[at + dice.between(1, 3):]

    def bytes_inserted(data, numbers):
        at = dice.below(len(data) + 1)
        return data[:at] + bytes(dice.below(256) for _ in range(dice.between(1, 3))) + data[at:]

    def number_changed(data, numbers):
        at = dice.below(len(numbers))
        new = dice.pick((numbers[at] + 1, max(numbers[at] - 1, 0), 0, 1, dice.below(60),
                         dice.below(numbers[1] + 2), dice.below(65_536)))
        return respelled(numbers, at, encode([new]))

    def label_changed(data, numbers):
        at = 2 + CELLS * dice.below(numbers[1]) + dice.below(3)
        new = dice.pick((0, 1, 2, 3, dice.between(1, 56)))
        return respelled(numbers, at, encode([new]))

    def operand_changed(data, numbers):
        at = 2 + CELLS * dice.below(numbers[1]) + dice.between(3, 4)
        return respelled(numbers, at, encode([dice.below(numbers[1] + 2)]))

    def symbol_changed(data, numbers):
        at = 2 + CELLS * dice.below(numbers[1]) + 5
        return respelled(numbers, at, encode([dice.pick((0, random_symbol(dice)))]))

    def operands_exchanged(data, numbers):
        one, other = (2 + CELLS * dice.below(numbers[1]) + dice.between(3, 4)
                      for _ in range(2))
        changed = list(numbers)
        changed[one], changed[other] = changed[other], changed[one]
        return encode(changed)

    def nodes_exchanged(data, numbers):
        one, other = (2 + CELLS * dice.below(numbers[1]) for _ in range(2))
        changed = list(numbers)
        changed[one:one + CELLS], changed[other:other + CELLS] = \
            numbers[other:other + CELLS], numbers[one:one + CELLS]
        return encode(changed)

    def last_node_removed(data, numbers):
        return encode([numbers[0], numbers[1] - 1] + numbers[2:-CELLS])

    def leaf_appended(data, numbers):
        return encode([numbers[0], numbers[1] + 1] + numbers[2:]
                      + [FORM_NUMBER['Lit'], 0, 0, 0, 0, 0])

    damages = (byte_changed, bit_changed, bytes_removed, bytes_inserted, number_changed,
               label_changed, operand_changed, symbol_changed, operands_exchanged,
               nodes_exchanged, last_node_removed, leaf_appended)
    for _ in range(90):
        nodes = nodes_of(random_tree(dice, dice.between(1, 40)), dice.pick(ORDERS), dice)
        numbers = numbers_of(nodes, dice.below(4))
        for damage in damages:
            damaged = damage(encode(numbers), numbers)
            recording.add(damaged, dice.pick((CELLS * len(nodes), CELLS * len(nodes) + 6, MOST_CELLS)))


MAKERS = (long_files, headers, counts_and_tables, body_numbers, cut_files, trailing_bytes, labels,
          symbols, older_files, operands, lists, ownership, segments_and_bounds, closures, depths, pairs, same_node,
          accepted_trees, largest_trees, damaged_copies)


def main():
    """Make, check, write and count."""
    recording = Recording()
    for seed, maker in enumerate(MAKERS, 100):
        maker(recording, Dice(seed))
    replies = Counter(record.reply for record in recording.records)
    forms = {form for record in recording.records for form in record.cells[::CELLS]}
    contexts = {record.context for record in recording.records if record.reply == 0}
    assert all(replies[refusal] >= 20 for refusal in range(1, 12)), replies
    assert replies[0] >= 300, replies
    assert forms == set(FORM_NUMBER.values()), forms
    assert contexts == {0, 1, 2, 3}, contexts
    OUTPUT.parent.mkdir(parents=True, exist_ok=True)
    size = recording.write(OUTPUT)
    assert size < LARGEST_OUTPUT, size
    print('reply  files')
    for answer in range(12):
        print(f'{answer:5}  {replies[answer]:5}')
    print(f'total  {len(recording.records):5}')
    print(f'{OUTPUT}: {size:,} bytes')


if __name__ == '__main__':
    main()
