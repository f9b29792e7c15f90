#!/usr/bin/env python3
"""Record node tables with their files, and pairs of tree files with their order.

Usage, from the root of the repository:

    python3 tools/record_archive.py

It writes crates/recorded/data/saves and crates/recorded/data/orders and prints what the
program `recorded` must print for them. The same files come out at every run.

Records stand one behind the other, all numbers little endian, and their headers are those
of crates/recorded/data/files (record_files.py):

    u16  how many bytes are lent for the file that is saved; 0 in `orders`
    u32  length in bytes of what is read
    u16  reply: 0, else the refusal
    u16  0
    u16  in `saves` the number of bytes of the file, in `orders` 0 before, 1 equal, 2 after;
         0 when refused

Then, in `saves`, what is read is a context, a count and the cells of the lent table, each
of u16, and when not refused the bytes of the file follow. In `orders` it is the length of
the first file, of u32, the bytes of the first file, and those of the second.

Where the answers come from. Refusals are the rules of record_files.py, one function for
each. The file of a tree is written by document 02's Paper 2: parents before operands, and
the first operand's nodes before the second's (`saved`), and a tree that was made here must
give the same by the order in which record_files.py lists its nodes. Files stand to each
other as Python orders the lists of their numbers, the count left out.

Nothing here knows how many numbers a node has but record_files.py's Node.
"""

import struct
from collections import Counter
from functools import cached_property
from pathlib import Path

from record_files import (
    DEFECTS, FORM_NUMBER, FORMS, LONGEST_RECORDED, NO, ORDERS, REFUSALS, SEGMENTED, SYMBOLS, Dice,
    Node, Tree, TreeFile, bare, call, encode, file_of, has_symbol, housed, nodes_of, numbers_of,
    padded, path, random_symbol, random_tree, reply, small_tree, wide_tree)

FOLDER = Path('crates/recorded/data')
LARGEST_OUTPUT = 1_000_000
NODE_CELLS = len(Node._fields)
MOST_NODES = 4_096
MOST_LENT = 65_535
REPLY_12 = 12
BEFORE, EQUAL, AFTER = range(3)


# ---------------------------------------------------------------------------
# Saving
# ---------------------------------------------------------------------------

class Table:
    """A node table beside its context and count, with what the rules ask of a file."""

    # 1, 2 and 5 speak of a file's bytes.
    RULES = [(number, applies) for number, applies in enumerate(REFUSALS, 1)
             if number not in (1, 2, 5)]

    def __init__(self, context, count, cells):
        self.context = context
        self.count = count
        self.cells = cells

    @property
    def lent(self):
        """The length of the table."""
        return len(self.cells)

    @cached_property
    def nodes(self):
        """The nodes by their numbers, from 1."""
        return {number: Node(*self.cells[NODE_CELLS * (number - 1):NODE_CELLS * number])
                for number in range(1, self.count + 1)}

    class_at = TreeFile.class_at

    @property
    def refusal(self):
        """The first that applies of 3, 4 and 6 to 11, or 0."""
        return next((number for number, applies in self.RULES if applies(self)), 0)

    @property
    def saved(self):
        """The file of the tree, its nodes numbered anew."""
        listed, waiting = [], [1]
        while waiting:
            number = waiting.pop()
            listed.append(number)
            waiting += reversed(self.nodes[number].present)
        anew = {0: 0, **{number: at for at, number in enumerate(listed, 1)}}
        return file_of([node._replace(first=anew[node.first], second=anew[node.second])
                        for node in (self.nodes[number] for number in listed)], self.context)


def table_of(nodes, context=0, spare=()):
    """The table of a list of nodes, with other cells behind it."""
    return Table(context, len(nodes), [number for node in nodes for number in node] + list(spare))


class Recording:
    """Records without repetitions, under the name of their file."""

    def __init__(self, name):
        self.name = name
        self.replies = Counter()
        self.met = set()
        self._records = {}

    def add(self, lent, read, answer, count, written=b''):
        """Record an answer to what is read."""
        assert len(read) <= LONGEST_RECORDED and lent <= MOST_LENT
        if (lent, read) not in self._records:
            header = struct.pack('<HIHHH', lent, len(read), answer, 0, count)
            self._records[lent, read] = header + read + written
            self.replies[answer] += 1

    def write(self):
        """Write the file, and print what `recorded` must print for it."""
        data = b''.join(self._records.values())
        assert len(data) < LARGEST_OUTPUT, len(data)
        (FOLDER / self.name).write_bytes(data)
        print(f'{self.name}\naccepted {self.replies[0]}')
        for answer in sorted(self.replies.keys() - {0}):
            print(f'refused {answer}: {self.replies[answer]}')
        print(f'files {len(self._records)}, different 0')


class Saves(Recording):
    """Tables, with the files that are saved of them."""

    def __init__(self):
        super().__init__('saves')

    def add_table(self, table, lent=None, meant=None):
        """Record a table; without a length, with as many bytes lent as its file has."""
        refusal = table.refusal
        file = table.saved if refusal == 0 else b''
        lent = len(file) if lent is None else lent
        answer = refusal or (REPLY_12 if lent < len(file) else 0)
        assert meant is None or answer == meant, f'meant {meant}, by the rules {answer}'
        cells = [table.context, table.count, *table.cells]
        written = file if answer == 0 else b''
        if answer == 0:
            self.met |= {node.form for node in table.nodes.values()}
        self.add(lent, struct.pack(f'<{len(cells)}H', *cells), answer, len(written), written)

    def add_tree(self, tree, context, dice):
        """Record a tree under several numberings, with buffers about as long as its file."""
        file = file_of(nodes_of(tree), context)
        for order in ORDERS:
            table = table_of(nodes_of(tree, order, dice), context)
            assert table.saved == file
            self.add_table(table, meant=0)
            self.add_table(table, len(file) - 1, meant=REPLY_12)
        self.add_table(table, dice.pick((0, 1, len(file) // 2, len(file) - 2)), meant=REPLY_12)
        self.add_table(table, len(file) + dice.between(1, 9), meant=0)


def few_nodes(saves, dice):
    """Trees of few nodes and all forms, in all contexts."""
    for size in (1, 1, 2, 2, 3, 3, 4, 5, 6, 7, 9, 12, 15, 18, 21, 24):
        for deep in (0.2, 0.8):
            saves.add_tree(random_tree(dice, size, deep), dice.below(4), dice)
    for name in FORMS:
        tree = housed(bare(name, NO if name in SEGMENTED else 0, full=True))
        saves.add_table(table_of(nodes_of(tree, 'random', dice), dice.below(4)), meant=0)


def symbols(saves, dice):
    """A symbol of every length at every form: saved where it may stand, and else 6."""
    for name in FORMS:
        detail = NO if name in SEGMENTED else 0
        for symbol in SYMBOLS:
            tree = housed(bare(name, detail, full=True, symbol=symbol))
            table = table_of(nodes_of(tree, 'random', dice), dice.below(4))
            fits = has_symbol(name, detail)
            saves.add_table(table, None if fits else 200, meant=0 if fits else 6)
            if fits:
                saves.add_table(table, len(table.saved) - 1, meant=REPLY_12)


def with_symbols(tree, dice, symbol=None):
    """The tree with this symbol, or with symbols of any length, at its names and literals."""
    waiting = [tree]
    while waiting:
        node = waiting.pop()
        if node.form in ('Path', 'Lit'):
            node.symbol = random_symbol(dice) if symbol is None else symbol
        waiting += node.operands()
    return tree


def many_nodes(saves, dice):
    """Trees at the counts where numbers get longer and where other arrays are used."""
    for count in (62, 63, 64, 65, 126, 127, 128, 129, 300):
        tree = with_symbols(wide_tree(count, Tree('Lit')), dice)
        file = file_of(nodes_of(tree), 1)
        table = table_of(nodes_of(tree, 'random', dice), 1)
        assert table.count == count and table.saved == file
        # Where three bytes a number are lent nothing is counted.
        enough = 3 * (2 + NODE_CELLS * count)
        for lent in (len(file), len(file) + 1, enough - 1, enough, MOST_LENT):
            saves.add_table(table, lent, meant=0)
        saves.add_table(table, len(file) - 1, meant=REPLY_12)
    largest = wide_tree(MOST_NODES, Tree('Lit'))
    for symbol in (None, 0, SYMBOLS[-1]):
        nodes = nodes_of(with_symbols(largest, dice, symbol), 'random', dice)
        saves.add_table(table_of(nodes, 2), meant=0)


def other_cells(saves, dice):
    """Tables that are longer than their nodes, and shorter."""
    for size in (1, 2, 5, 30):
        nodes = nodes_of(random_tree(dice, size), 'random', dice)
        for spare in ([0], [65_535] * 3, nodes[0], [26] * 40):
            saves.add_table(table_of(nodes, 0, spare), meant=0)
        for cut in (1, NODE_CELLS - 1, NODE_CELLS):
            table = table_of(nodes, 0)
            saves.add_table(Table(0, table.count, table.cells[:-cut]), 100, meant=4)
            saves.add_table(Table(4, table.count, table.cells[:-cut]), 100, meant=3)


def headers(saves, dice):
    """Contexts and counts that are not allowed, whatever the table and the buffer are."""
    nodes = nodes_of(small_tree())
    broken = nodes_of(Tree(57))
    for table in (table_of(nodes), table_of(broken)):
        for lent in (0, 200):
            for context in (4, 5, 256, 65_535):
                saves.add_table(Table(context, table.count, table.cells), lent, meant=3)
                saves.add_table(Table(context, 0, table.cells), lent, meant=3)
            for count in (0, table.count + 1, MOST_NODES, MOST_NODES + 1, 65_535):
                saves.add_table(Table(1, count, table.cells), lent, meant=4)
    saves.add_table(Table(0, 0, []), 0, meant=4)
    many = nodes_of(wide_tree(MOST_NODES + 1))
    saves.add_table(table_of(many), 0, meant=4)


def refused(saves, dice):
    """6 to 11, with buffers that are too short and long enough: they come before 12."""
    for refusal, defects in DEFECTS.items():
        for defect in defects:
            nodes = nodes_of(call(small_tree(), defect()), dice.pick(ORDERS), dice)
            saves.add_table(table_of(nodes, dice.below(4)), dice.pick((0, 1, 2_000)), meant=refusal)
    for low in range(6, 12):
        for high in range(low + 1, 12):
            trees = [dice.pick(DEFECTS[refusal])() for refusal in (high, low)]
            saves.add_table(table_of(nodes_of(call(*trees))), 0, meant=low)


def changed_cells(saves, dice):
    """Accepted tables with one cell changed, whatever the rules say of them."""
    for _ in range(150):
        table = table_of(nodes_of(random_tree(dice, dice.between(1, 12)), 'random', dice), 0)
        at = dice.below(table.lent)
        new = dice.pick((0, 1, 2, dice.between(1, 56), dice.below(table.count + 2)))
        table.cells[at] = new
        saves.add_table(table, 200)


# ---------------------------------------------------------------------------
# Comparing
# ---------------------------------------------------------------------------

class Orders(Recording):
    """Two files, with how the first stands to the second."""

    def __init__(self):
        super().__init__('orders')

    def add_files(self, first, second, meant=None):
        """Record how a file stands to another."""
        files = [TreeFile(data, MOST_LENT) for data in (first, second)]
        answer = reply(files[0]) or reply(files[1])
        count = 0
        if answer == 0:
            one, two = ([file.context, *file.body[0]] for file in files)
            count = AFTER if one > two else EQUAL if one == two else BEFORE
            self.met.add(count)
        assert meant is None or (answer, count) == meant, f'meant {meant}, found {answer, count}'
        self.add(0, struct.pack('<I', len(first)) + first + second, answer, count)

    def add_both(self, first, second, meant):
        """The same of accepted files, and the other way round."""
        self.add_files(first, second, (0, meant))
        self.add_files(second, first, (0, AFTER - meant))


def alike(orders, dice):
    """Files of one tree and of trees near it, each beside each."""
    for size in (1, 3, 6, 10, 30):
        tree = random_tree(dice, size)
        nodes = nodes_of(tree)
        context = dice.below(4)
        files = [file_of(nodes_of(tree, order, dice), context) for order in ORDERS]
        files += [file_of(nodes, other) for other in range(4)]
        at = dice.below(len(nodes))
        for name in Node._fields:
            cell = getattr(nodes[at], name)
            other = nodes[at]._replace(**{name: cell + 1 if cell == 0 else cell - 1})
            files.append(file_of(nodes[:at] + [other] + nodes[at + 1:], context))
        files.append(file_of(nodes_of(Tree('Paren', tree)), context))
        files.append(file_of(nodes, context)[:-1])
        files.append(file_of(nodes_of(random_tree(dice, size)), context))
        for first in files:
            for second in files:
                orders.add_files(first, second)


def ordered_symbols(orders, dice):
    """Trees that differ in one symbol alone, or in one symbol and the context."""
    for name in FORMS:
        detail = NO if name in SEGMENTED else 0
        if has_symbol(name, detail):
            trees = [housed(bare(name, detail, full=True, symbol=symbol)) for symbol in (0, *SYMBOLS)]
            files = [file_of(nodes_of(tree)) for tree in trees]
            for low, high in zip(files, files[1:]):
                orders.add_both(low, high, BEFORE)
            orders.add_both(files[-1], file_of(nodes_of(trees[0]), 1), BEFORE)
    for size in (2, 20, 70):
        nodes = nodes_of(with_symbols(wide_tree(2 * size + 2), dice))
        last = nodes[-1]
        assert last.form == FORM_NUMBER['Path']
        low, high = ([*nodes[:-1], last._replace(symbol=symbol)] for symbol in (127, 128))
        orders.add_both(file_of(low), file_of(high), BEFORE)


def least_differences(orders, dice):
    """Only in the context, only in the last number that can differ, and in length."""
    one = [file_of(nodes_of(path()), context) for context in range(4)]
    for low in range(4):
        for high in range(low, 4):
            orders.add_both(one[low], one[high], EQUAL if low == high else BEFORE)
    for size in (1, 2, 20, 70):
        nodes = nodes_of(wide_tree(2 * size + 2, Tree('Block')))
        last = nodes[-1]
        assert last.form == FORM_NUMBER['Block']
        orders.add_both(file_of(nodes), file_of(nodes[:-1] + [last._replace(detail=1)]), BEFORE)
    for items in range(12):
        calls = [call(*[path() for _ in range(more)]) for more in (items, items + 1)]
        orders.add_both(*[file_of(nodes_of(tree)) for tree in calls], BEFORE)
    most = nodes_of(wide_tree(MOST_NODES, Tree('Block')))
    orders.add_files(file_of(most), file_of(most[:-1] + [most[-1]._replace(detail=1)]),
                     (0, BEFORE))


def checks(orders, dice):
    """Files that are refused: the first one's refusals come before the second's."""
    fine = file_of(nodes_of(small_tree()), 1)
    numbers = numbers_of(nodes_of(small_tree()), 1)
    bad = {
        2: [b'', b'\x80', padded(1, 1) + fine[1:]],
        3: [file_of(nodes_of(path()), 4), encode([4, 0])],
        4: [encode([0, 0]), encode([0, MOST_NODES + 1])],
        5: [fine[:-1], fine + b'\x00', fine[:-1] + padded(numbers[-1], 1)],
        **{refusal: [file_of(nodes_of(call(small_tree(), defect()))) for defect in defects[:4]]
           for refusal, defects in DEFECTS.items()},
    }
    for refusal, files in bad.items():
        for file in files:
            orders.add_files(file, fine, (refusal, 0))
            orders.add_files(fine, file, (refusal, 0))
            orders.add_files(file, file, (refusal, 0))
        for other in bad.values():
            orders.add_files(dice.pick(files), dice.pick(other), (refusal, 0))
    too_long = fine.ljust(65_537, b'\x00')
    orders.add_files(too_long, bad[2][1], (1, 0))
    orders.add_files(fine, too_long, (1, 0))
    orders.add_files(bad[2][1], too_long, (2, 0))


SAVE_MAKERS = (few_nodes, many_nodes, other_cells, headers, refused, changed_cells, symbols)
ORDER_MAKERS = (alike, least_differences, checks, ordered_symbols)


def main():
    """Make, check, write and print."""
    saves, orders = Saves(), Orders()
    for seed, maker in enumerate(SAVE_MAKERS, 200):
        maker(saves, Dice(seed))
    for seed, maker in enumerate(ORDER_MAKERS, 300):
        maker(orders, Dice(seed))
    assert saves.replies.keys() == {0, 3, 4, *range(6, 13)}, saves.replies
    assert saves.met == set(FORM_NUMBER.values()), set(FORM_NUMBER.values()) - saves.met
    assert orders.replies.keys() == {*range(12)}, orders.replies
    assert orders.met == {BEFORE, EQUAL, AFTER}, orders.met
    for recording in (saves, orders):
        recording.write()


if __name__ == '__main__':
    main()
