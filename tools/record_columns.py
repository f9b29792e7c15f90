#!/usr/bin/env python3
"""Record tree files with their rearranged files, and rearranged files with what they are put back to.

Usage, from the root of the repository:

    python3 tools/record_columns.py

It writes crates/recorded/data/columns and crates/recorded/data/restored, and prints how many
of each have which reply. The same files come out at every run. Records are those of
record_archive.py's `saves`: what is read is a file, and the bytes of the other kind of file
follow when it is not refused.

Where the answers come from. Document 02's Paper 11, list by list: `held` and `restored`.
Refusals are the rules of record_files.py, 1 to 5 on the bytes, 6 to 11 on the nodes that are
restored, and between them 19.
"""

from itertools import accumulate

from record_archive import MOST_LENT, MOST_NODES, NODE_CELLS, REPLY_12, Recording, Table, with_symbols
from record_files import (
    DEFECTS, FORMS, NO, ORDERS, REFUSALS, SEGMENTED, SYMBOLS, Dice, Node, Tree, TreeFile, bare, call,
    encode, file_of, has_symbol, housed, nodes_of, padded, random_tree, reply, small_tree, wide_tree)

REPLY_19 = 19
MOST = 65_535
STEP = 32_767  # the most that one number adds to a form


# ---------------------------------------------------------------------------
# The paper
# ---------------------------------------------------------------------------

def sign(difference):
    """A difference as it is held."""
    return 2 * difference if difference >= 0 else -2 * difference - 1


def unsigned(held):
    """The difference that is held."""
    return held // 2 if held % 2 == 0 else -(held + 1) // 2


def held(nodes):
    """The numbers of a rearranged file behind its header."""
    columns = Node(*zip(*nodes))
    forms = [sign(form - before) for before, form in zip((0, *columns.form), columns.form)]
    distances = [[operand - owner if operand else 0 for owner, operand in enumerate(operands, 1)]
                 for operands in (columns.first, columns.second)]
    columns = columns._replace(form=forms, first=distances[0], second=distances[1])
    return [number for column in columns for number in column]


def restored(count, numbers):
    """The nodes that are restored from these numbers; their numbers may be any."""
    columns = Node(*(numbers[count * at:count * (at + 1)] for at in range(NODE_CELLS)))
    forms = list(accumulate(map(unsigned, columns.form)))
    operands = [[owner + distance if distance else 0 for owner, distance in enumerate(distances, 1)]
                for distances in (columns.first, columns.second)]
    return [Node(*numbers) for numbers in
            zip(*columns._replace(form=forms, first=operands[0], second=operands[1]))]


def columns_of(nodes, context=0):
    """The rearranged file of nodes."""
    return encode([context, len(nodes), *held(nodes)])


def put_back(data):
    """The refusal of a rearranged file and None, or 0 and its nodes."""
    file = TreeFile(data, MOST_LENT)
    refusal = next((number for number, applies in enumerate(REFUSALS[:5], 1) if applies(file)), 0)
    if refusal:
        return refusal, None
    nodes = restored(file.count, file.body[0])
    if not all(0 <= number <= MOST for node in nodes for number in node):
        return REPLY_19, None
    refusal = Table(file.context, file.count, [number for node in nodes for number in node]).refusal
    return (refusal, None) if refusal else (0, nodes)


# ---------------------------------------------------------------------------
# Recordings
# ---------------------------------------------------------------------------

class Made(Recording):
    """Files of one kind, with the files of the other kind that are made of them."""

    def add_file(self, data, lent=None, meant=None):
        """Record a file; without a length, with as many bytes lent as are written."""
        refusal, made = self.made(data)
        lent = len(made) if lent is None else lent
        answer = refusal or (REPLY_12 if lent < len(made) else 0)
        assert meant is None or answer == meant, f'meant {meant}, by the rules {answer}'
        written = made if answer == 0 else b''
        self.add(lent, data, answer, len(written), written)

    def add_lengths(self, data):
        """Record an accepted file with buffers about as long as is written."""
        length = len(self.made(data)[1])
        for lent in (length - 8, length - 1, length, length + 1, length + 8):
            self.add_file(data, max(lent, 0), REPLY_12 if lent < length else 0)


class Columns(Made):
    """Tree files, rearranged."""

    def __init__(self):
        super().__init__('columns')

    @staticmethod
    def made(data):
        """The reply to a tree file, and its rearranged file."""
        file = TreeFile(data, MOST_LENT)
        refusal = reply(file)
        if refusal:
            return refusal, b''
        return 0, columns_of(list(file.nodes.values()), file.context)


class Restored(Made):
    """Rearranged files, put back."""

    def __init__(self):
        super().__init__('restored')

    @staticmethod
    def made(data):
        """The reply to a rearranged file, and the tree file that it comes from."""
        refusal, nodes = put_back(data)
        return (refusal, b'') if refusal else (0, file_of(nodes, TreeFile(data, MOST_LENT).context))


# ---------------------------------------------------------------------------
# Makers
# ---------------------------------------------------------------------------

def trees(columns, back, dice):
    """Trees under several numberings, each way, with buffers about as long as is written."""
    for size in (1, 1, 2, 3, 4, 6, 9, 14, 21, 40):
        tree = random_tree(dice, size, dice.pick((0.2, 0.8)))
        for order in ORDERS:
            nodes, context = nodes_of(tree, order, dice), dice.below(4)
            columns.add_lengths(file_of(nodes, context))
            back.add_lengths(columns_of(nodes, context))
    for name in FORMS:
        detail = NO if name in SEGMENTED else 0
        symbol = dice.pick(SYMBOLS) if has_symbol(name, detail) else 0
        nodes = nodes_of(housed(bare(name, detail, full=True, symbol=symbol)), 'random', dice)
        columns.add_file(file_of(nodes), meant=0)
        back.add_file(columns_of(nodes), meant=0)


def sizes(columns, back, dice):
    """Trees at the counts where numbers get longer, and the largest."""
    for count in (63, 64, 127, 128, 129, 300, MOST_NODES):
        nodes = nodes_of(with_symbols(wide_tree(count, Tree('Lit')), dice), 'random', dice)
        for recording, data in ((columns, file_of(nodes, 2)), (back, columns_of(nodes, 2))):
            if count < MOST_NODES:
                recording.add_lengths(data)
            else:
                recording.add_file(data, meant=0)


def refused(columns, back, dice):
    """6 to 11 with buffers of any length, as far as columns can hold them."""
    for refusal, defects in DEFECTS.items():
        for defect in defects:
            nodes = nodes_of(call(small_tree(), defect()), dice.pick(ORDERS), dice)
            lent = dice.pick((0, 1, 2_000))
            columns.add_file(file_of(nodes), lent, meant=refusal)
            numbers = held(nodes)
            if all(0 <= number <= MOST for number in numbers):
                back.add_file(encode([0, len(nodes), *numbers]), lent)
    for bad in (b'', b'\x80', b'\x04\x01', b'\x00\x00', encode([0, MOST_NODES + 1]), bytes(65_537)):
        columns.add_file(bad, 0)
        back.add_file(bad, 0)


def cut(columns, back, dice):
    """Files that are cut, extended and changed at every byte."""
    for size in (2, 4, 7):
        nodes = nodes_of(random_tree(dice, size), 'random', dice)
        for recording, data in ((columns, file_of(nodes)), (back, columns_of(nodes))):
            for at in range(len(data)):
                recording.add_file(data[:at], 99)
                recording.add_file(data[:at] + bytes([dice.below(256)]) + data[at:], 99)
                recording.add_file(data[:at] + bytes([data[at] ^ 0x80]) + data[at + 1:], 99)
                recording.add_file(data[:at] + bytes([dice.below(128)]) + data[at + 1:], 99)
            recording.add_file(data + b'\x00', 99, meant=5)


def outside(columns, back, dice):
    """19 in every column, place and direction, beside what comes before it and after it."""
    for size in (3, 5, 9):
        nodes = nodes_of(random_tree(dice, size), dice.pick(ORDERS), dice)
        numbers, count = held(nodes), len(nodes)

        def change(changes, meant=None, spoil=lambda data: data):
            changed = list(numbers)
            for at, number in changes.items():
                changed[at] = number
            back.add_file(spoil(encode([1, count, *changed])), 99, meant)

        for at, node in enumerate(nodes):
            before = nodes[at - 1].form if at else 0
            below = {at: 2 * before + 1}
            change(below, REPLY_19)
            change({at: max(2 * before - 1, 0)})
            change({at: MOST}, REPLY_19)
            if at >= 2 and nodes[at - 2].form > 1:
                start = nodes[at - 2].form
                change({at - 1: 2 * STEP, at: 2 * (MOST + 1 - start - STEP)}, REPLY_19)
                change({at - 1: 2 * STEP, at: 2 * (MOST - start - STEP)})
            for operands in (3 * count, 4 * count):
                change({operands + at: MOST - at}, REPLY_19)
                change({operands + at: MOST}, REPLY_19)
                change({operands + at: MOST - at - 1})
            # All of 5 comes before, and 6 after.
            change(below, 5, lambda data: data + b'\x00')
            change(below, 5, lambda data: data[:-1] + padded(data[-1], 1) if data[-1] < 0x80 else data)
            change({**below, count + at: 9}, REPLY_19)
            change({count + at: 9, 4 * count + at: MOST}, REPLY_19)


MAKERS = (trees, sizes, refused, cut, outside)


def main():
    """Make, check, write and print."""
    columns, back = Columns(), Restored()
    for seed, maker in enumerate(MAKERS, 400):
        maker(columns, back, Dice(seed))
    assert columns.replies.keys() >= {0, *range(1, 13)}, columns.replies
    assert back.replies.keys() >= {0, *range(1, 13), REPLY_19}, back.replies
    for recording in (columns, back):
        recording.write()


if __name__ == '__main__':
    main()
