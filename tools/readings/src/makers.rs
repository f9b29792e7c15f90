//! Makers of token lists: random ones, and ones whose verdict is known from how
//! they are put together.

use crate::plain;
use crate::written::written;
use model::codes::*;
use model::commas;
use model::contexts::CONDITION;
use model::forms;
use model::generate::{self, Dice, Family, SYMBOLS};
use model::sizes::{MOST_LEVELS, MOST_NODES, MOST_TOKENS, NODE_CELLS};
use model::table::{erase, NodeTable};
use model::table::{ATTRIBUTES, DETAIL, FIRST, FORM, SECOND, SYMBOL};
use model::verdict::{within_bounds, Verdict};
use model::written::{last_links, without_parens};

/// A list with up to about so many tokens, with symbols at most that may have one.
pub fn random(dice: &mut Dice, seed: u64, most_tokens: usize) -> Vec<Token> {
    let mut list = match dice.below(5) {
        0..=2 => edited(dice, seed, most_tokens),
        3 => tokens(&walked(dice, most_tokens)),
        _ => (0..dice.between(1, 12)).map(|_| any_code(dice).into()).collect(),
    };
    generate::token_symbols(&mut list, dice);
    list
}

fn any_code(dice: &mut Dice) -> u16 {
    dice.below(CODES.into()) as u16
}

/// Seldom gives a symbol to a token that may have none.
pub fn misplace_symbol(dice: &mut Dice, tokens: &mut [Token]) {
    if !tokens.is_empty() && dice.percent(4) {
        let at = dice.below(tokens.len());
        tokens[at].symbol = dice.pick(&SYMBOLS);
    }
}

/// The same with commas put in, half of them in what is written for a plain tree that has
/// lists.
pub fn with_commas(dice: &mut Dice, seed: u64, most_tokens: usize) -> Vec<Token> {
    let mut tokens = match dice.percent(50) {
        true => loop {
            let tree = drawn(dice, seed, most_tokens);
            if !last_links(&tree).is_empty() {
                break written(&tree).tokens;
            }
        },
        false => random(dice, seed, most_tokens),
    };
    commas::put_in(dice, &mut tokens);
    tokens
}

/// What is written for a plain tree, with up to three edits.
fn edited(dice: &mut Dice, seed: u64, most_tokens: usize) -> Vec<Token> {
    let tree = drawn(dice, seed, most_tokens);
    let mut tokens = written(&tree).tokens;
    for _ in 0..dice.below(4) {
        edit(dice, &mut tokens);
    }
    tokens
}

/// A random plain tree with up to so many tokens, half of them with Structs, of which half
/// stand in a condition.
pub fn drawn(dice: &mut Dice, seed: u64, most_tokens: usize) -> NodeTable {
    loop {
        let at = dice.below(1 << 40) as u64;
        let family = dice.pick(&[Family::Plain, Family::Structs]);
        let tree = plain::random(family, seed.wrapping_add(at), most_tokens as u16).next();
        let tree = tree.expect("there are always more");
        if written(&tree).tokens.len() <= most_tokens {
            return tree;
        }
    }
}

fn edit(dice: &mut Dice, tokens: &mut Vec<Token>) {
    let length = tokens.len();
    if length == 0 {
        tokens.push(NAME.into());
        return;
    }
    let at = dice.below(length);
    let code = match dice.below(3) {
        0 => dice
            .pick(&[LESS, SHIFT_LEFT, GREATER, OPEN, CLOSE, COMMA, NAME, DOT, AS, MINUS, STRUCT]),
        _ => any_code(dice),
    };
    match dice.below(8) {
        0 => {
            tokens.remove(at);
        }
        1 => tokens.insert(at, code.into()),
        2 => tokens[at] = code.into(),
        3 => tokens.swap(at, (at + 1) % length),
        4 => {
            // A pair round some tokens.
            let to = dice.between(at, length);
            tokens.insert(to, CLOSE.into());
            tokens.insert(at, OPEN.into());
        }
        5 => {
            // One pair of parentheses goes, matched or not.
            let opening = tokens.iter().position(|token| token.code == OPEN);
            let closing = tokens.iter().rposition(|token| token.code == CLOSE);
            if let (Some(opening), Some(closing)) = (opening, closing) {
                tokens.remove(opening.max(closing));
                tokens.remove(opening.min(closing));
            }
        }
        6 => {
            // Another operator.
            let is_operator = |at: &usize| tokens[*at].code <= EQUALS;
            let operators: Vec<usize> = (0..length).filter(is_operator).collect();
            if !operators.is_empty() {
                let at = dice.pick(&operators);
                tokens[at].code = dice.below(usize::from(EQUALS) + 1) as u16;
            }
        }
        _ => {
            let to = dice.between(at, length.min(at + 6));
            let again = tokens[at..to].to_vec();
            tokens.splice(at..at, again);
        }
    }
}

/// Tokens that mostly may follow each other.
fn walked(dice: &mut Dice, most_tokens: usize) -> Vec<u16> {
    let length = dice.between(1, most_tokens);
    let mut tokens = Vec::new();
    let mut open = Vec::new();
    let mut operand = true;
    while tokens.len() < length {
        if dice.percent(2) {
            tokens.push(any_code(dice));
        }
        if operand {
            match dice.below(10) {
                0 => tokens.push(dice.pick(&[MINUS, STAR, NOT, AND, AND_MUT])),
                1 => {
                    tokens.push(OPEN);
                    open.push(CLOSE);
                }
                2 => {
                    tokens.push(dice.pick(&[LITERAL, STRUCT]));
                    operand = false;
                }
                _ => {
                    tokens.push(NAME);
                    operand = false;
                }
            }
            continue;
        }
        match dice.below(12) {
            0..=2 => {
                tokens.push(dice.below(usize::from(EQUALS) + 1) as u16);
                operand = true;
            }
            3 | 4 => {
                tokens.push(AS);
                some_type(dice, &mut tokens, 3);
            }
            5 => tokens.extend([DOT, dice.pick(&[NAME, NAME, MEMBER, model::codes::AWAIT])]),
            6 => tokens.push(QUESTION),
            7 => {
                tokens.extend([OPEN, CLOSE]);
            }
            8 => {
                let (opening, closing) = dice.pick(&[(OPEN, CLOSE), (OPEN_BRACKET, CLOSE_BRACKET)]);
                tokens.push(opening);
                open.push(closing);
                operand = true;
            }
            9 if !open.is_empty() => {
                tokens.push(COMMA);
                operand = true;
            }
            _ => tokens.extend(open.pop()),
        }
    }
    if operand {
        tokens.push(NAME);
    }
    tokens.extend(open.into_iter().rev());
    tokens
}

fn some_type(dice: &mut Dice, tokens: &mut Vec<u16>, depth: usize) {
    match dice.below(8) {
        0 if depth > 0 => {
            tokens.push(dice.pick(&[AND, AND_MUT, STAR_CONST, STAR_MUT]));
            some_type(dice, tokens, depth - 1);
        }
        1 | 2 if depth > 0 => {
            tokens.extend([NAME, LESS]);
            for item in 0..dice.below(3) {
                if item > 0 {
                    tokens.push(COMMA);
                }
                some_type(dice, tokens, depth - 1);
            }
            tokens.push(GREATER);
        }
        3 => tokens.push(dice.pick(&[UNDERSCORE, NOT])),
        _ => tokens.push(NAME),
    }
}

/// A node table that is plain, or nearly so, or any tree in any context.
pub fn table(dice: &mut Dice, seed: u64) -> NodeTable {
    if dice.percent(10) {
        return Family::Mixed.tree(seed, dice.below(1 << 40) as u64);
    }
    let mut tree = drawn(dice, seed, 60);
    for _ in 0..dice.below(3) {
        let node = NODE_CELLS * dice.below(tree.count.into());
        match dice.below(13) {
            0 => tree.context = dice.below(5) as u16,
            1 => {
                tree.count = dice.pick(&[0, tree.count - 1, tree.count + 1, MOST_NODES as u16 + 1])
            }
            2 => tree.cells[node + FORM] = dice.below(58) as u16,
            3 => tree.cells[node + ATTRIBUTES] = dice.below(4) as u16,
            4..=7 => tree.cells[node + DETAIL] = dice.below(30) as u16,
            8 => tree.cells[node + FIRST] = dice.below(usize::from(tree.count) + 2) as u16,
            9 => tree.cells[node + SECOND] = dice.below(usize::from(tree.count) + 2) as u16,
            10 => tree.cells[node + SYMBOL] = dice.pick(&[1, 127, 128, 16_383, 16_384, 65_535]),
            // A leaf or an operand's owner becomes another of its kind.
            _ => {
                let leaf = tree.cells[node + FIRST..=node + SECOND] == [0, 0];
                let others: &[u16] = if leaf {
                    &[
                        forms::PATH,
                        forms::LIT,
                        forms::STRUCT,
                        forms::BLOCK,
                        forms::TYPE_TUPLE,
                        forms::TYPE_INFER,
                    ]
                } else {
                    &[forms::GROUP, forms::RANGE, forms::LET, forms::RETURN, forms::PAREN]
                };
                tree.cells[node + FORM] = dice.pick(others);
                tree.cells[node + DETAIL] = 0;
            }
        }
        if tree.cells.len() < NODE_CELLS * usize::from(tree.count) || tree.count == 0 {
            break;
        }
    }
    tree
}

/// The codes of a list with its verdict, without symbols.
pub type Constructed = (Vec<u16>, Verdict);

/// A list with its verdict.
pub type Named = (Vec<Token>, Verdict);

/// The list with symbols at its tokens, and its reading with the same ones at its nodes: in
/// the order in which nodes are printed.
pub fn named((codes, verdict): Constructed, dice: &mut Dice) -> Named {
    let mut list = tokens(&codes);
    generate::token_symbols(&mut list, dice);
    let symbols = list.iter().filter(|token| has_symbol(token.code)).map(|token| token.symbol);
    let verdict = verdict.map(|mut cells| {
        let nodes = naming_nodes(&cells);
        assert!(nodes.iter().all(|node| cells[node + SYMBOL] == 0), "no symbols yet");
        nodes.iter().zip(symbols).for_each(|(node, symbol)| cells[node + SYMBOL] = symbol);
        cells
    });
    (list, verdict)
}

/// Where the nodes stand that have a name, a literal or a member, in the order in which
/// they are printed.
fn naming_nodes(cells: &[u16]) -> Vec<usize> {
    let mut found = Vec::new();
    // Nodes that are to come, and names.
    let mut waiting = vec![(0, false)];
    while let Some((node, is_name)) = waiting.pop() {
        if is_name {
            found.push(node);
            continue;
        }
        let operand = |place: usize| usize::from(cells[node + place]).checked_sub(1);
        let below = |place: usize| operand(place).map(|at| (NODE_CELLS * at, false));
        let name = forms::has_symbol(cells[node + FORM], cells[node + DETAIL]);
        // What is printed last waits first; a member stands behind its first operand.
        waiting.extend(below(SECOND));
        waiting.extend(name.then_some((node, true)));
        waiting.extend(below(FIRST));
    }
    found
}

/// A chain of so many nodes: each step puts tokens before and behind the operand.
struct Nest {
    before: &'static [u16],
    behind: &'static [u16],
    /// Form, detail, and the leaves in its places; the one left free is the operand's.
    node: (u16, u16),
    other: Option<(usize, &'static [u16])>,
}

const PATH_CELLS: [u16; NODE_CELLS] = [forms::PATH, 0, 0, 0, 0, 0];
const STRUCT_CELLS: [u16; NODE_CELLS] = [forms::STRUCT, 0, 0, 0, 0, 0];
const TYPE_CELLS: [u16; NODE_CELLS] = [forms::TYPE_PATH, 0, 1, 0, 0, 0];
const LINK_TO_PATH: [u16; 2 * NODE_CELLS] =
    [forms::LINK, 0, 0, 2, 0, 0, forms::PATH, 0, 0, 0, 0, 0];

/// Nests of expressions, all written without parentheses.
const NESTS: [Nest; 14] = [
    Nest { before: &[MINUS], behind: &[], node: (forms::UNARY, 2), other: None },
    Nest { before: &[AND_MUT], behind: &[], node: (forms::REFERENCE, 1), other: None },
    Nest { before: &[], behind: &[QUESTION], node: (forms::TRY, 0), other: None },
    Nest { before: &[], behind: &[DOT, NAME], node: (forms::FIELD, 0), other: None },
    Nest { before: &[], behind: &[DOT, model::codes::AWAIT], node: (forms::AWAIT, 0), other: None },
    Nest { before: &[], behind: &[OPEN, CLOSE], node: (forms::CALL, 0), other: None },
    Nest {
        before: &[],
        behind: &[DOT, NAME, OPEN, NAME, CLOSE],
        node: (forms::METHOD_CALL, 0),
        other: Some((1, &LINK_TO_PATH)),
    },
    Nest {
        before: &[],
        behind: &[OPEN_BRACKET, NAME, CLOSE_BRACKET],
        node: (forms::INDEX, 0),
        other: Some((1, &PATH_CELLS)),
    },
    Nest {
        before: &[NAME, OPEN_BRACKET],
        behind: &[CLOSE_BRACKET],
        node: (forms::INDEX, 0),
        other: Some((0, &PATH_CELLS)),
    },
    Nest {
        before: &[],
        behind: &[MINUS, NAME],
        node: (forms::BINARY, MINUS),
        other: Some((1, &PATH_CELLS)),
    },
    Nest {
        before: &[NAME, EQUALS],
        behind: &[],
        node: (forms::ASSIGN, 0),
        other: Some((0, &PATH_CELLS)),
    },
    Nest {
        before: &[NAME, 26],
        behind: &[],
        node: (forms::BINARY, 26),
        other: Some((0, &PATH_CELLS)),
    },
    Nest {
        before: &[],
        behind: &[AS, NAME],
        node: (forms::CAST, 0),
        other: Some((1, &TYPE_CELLS)),
    },
    Nest {
        before: &[NAME, MINUS, OPEN],
        behind: &[CLOSE],
        node: (forms::BINARY, MINUS),
        other: Some((0, &PATH_CELLS)),
    },
];

/// Cells with all operands further on by so many nodes.
fn shifted(cells: &[u16], by: usize) -> impl Iterator<Item = u16> + '_ {
    let operand = move |cell: u16| if cell == 0 { 0 } else { cell + by as u16 };
    cells.iter().zip((0..NODE_CELLS).cycle()).map(move |(&cell, at)| {
        if (FIRST..=SECOND).contains(&at) {
            operand(cell)
        } else {
            cell
        }
    })
}

/// A node above the tree of a table, which stands in one of its places beside
/// another tree.
fn above(cells: &[u16], (form, detail): (u16, u16), other: Option<(usize, &[u16])>) -> Vec<u16> {
    let mut table = vec![form, 0, detail, 2, 0, 0];
    match other {
        None => table.extend(shifted(cells, 1)),
        Some((1, other)) => {
            let nodes = 1 + cells.len() / NODE_CELLS;
            table[SECOND] = nodes as u16 + 1;
            table.extend(shifted(cells, 1));
            table.extend(shifted(other, nodes));
        }
        Some((_, other)) => {
            let nodes = 1 + other.len() / NODE_CELLS;
            table[SECOND] = nodes as u16 + 1;
            table.extend(shifted(other, 1));
            table.extend(shifted(cells, nodes));
        }
    }
    table
}

impl Nest {
    /// The nest with so many nodes on its longest path, over a name.
    fn of(&self, path: usize) -> Constructed {
        self.over(NAME, &PATH_CELLS, path)
    }

    /// The nest over a Struct, whose verdict is that of a context: in a condition there is a
    /// reading only if the nest puts its operand between parentheses or brackets.
    fn over_struct(&self, path: usize, context: u16) -> Constructed {
        let (tokens, verdict) = self.over(STRUCT, &STRUCT_CELLS, path);
        let is_bare =
            path == 1 || !self.before.iter().any(|&code| code == OPEN || code == OPEN_BRACKET);
        let verdict = if context == CONDITION && is_bare { Err(15) } else { verdict };
        (tokens, verdict)
    }

    fn over(&self, leaf: u16, cells: &[u16], path: usize) -> Constructed {
        let (mut tokens, mut table) = (vec![leaf], cells.to_vec());
        for _ in 1..path {
            tokens.splice(0..0, self.before.iter().copied());
            tokens.extend(self.behind);
            table = above(&table, self.node, self.other);
        }
        (tokens, within_bounds(table))
    }
}

/// The same for types, below a Cast.
fn type_nest(path: usize, arguments: bool) -> Constructed {
    let mut tokens = vec![NAME];
    let mut table = TYPE_CELLS.to_vec();
    for _ in 2..path {
        if arguments {
            tokens.splice(0..0, [NAME, LESS]);
            tokens.push(GREATER);
            let link = above(&table, (forms::LINK, 0), None);
            let mut node = above(&link, (forms::TYPE_PATH, 2), None);
            node[FIRST..=SECOND].copy_from_slice(&[0, 2]);
            table = node;
        } else {
            tokens.insert(0, STAR_MUT);
            table = above(&table, (forms::TYPE_PTR, 1), None);
        }
    }
    tokens.splice(0..0, [NAME, AS]);
    (tokens, within_bounds(above(&table, (forms::CAST, 0), Some((0, &PATH_CELLS)))))
}

/// The links of so many items.
fn links(items: usize, item: &[u16]) -> Vec<u16> {
    let mut table = Vec::new();
    let nodes = 1 + item.len() / NODE_CELLS;
    for at in 0..items {
        let by = nodes * at;
        let next = if at + 1 < items { by + nodes + 1 } else { 0 };
        table.extend([forms::LINK, 0, 0, by as u16 + 2, next as u16, 0]);
        table.extend(shifted(item, by + 1));
    }
    table
}

/// A tree called with arguments that make it so many nodes. A `?` behind it mends
/// an odd number.
pub fn called(tree: &NodeTable, nodes: usize) -> Option<Constructed> {
    let mut tokens = vec![OPEN];
    tokens.extend(written(tree).tokens.iter().map(|token| token.code));
    tokens.push(CLOSE);
    let mut table = without_parens(tree);
    erase(&mut table);
    let has = |table: &[u16]| table.len() / NODE_CELLS;
    if (nodes.checked_sub(has(&table) + 1)?) % 2 == 1 {
        tokens.push(QUESTION);
        table = above(&table, (forms::TRY, 0), None);
    }
    let arguments = (nodes - has(&table) - 1) / 2;
    tokens.push(OPEN);
    for argument in 0..arguments {
        if argument > 0 {
            tokens.push(COMMA);
        }
        tokens.push(LITERAL);
    }
    tokens.push(CLOSE);
    let links = links(arguments, &[forms::LIT, 0, 0, 0, 0, 0]);
    let other = (arguments > 0).then_some((1, &links[..]));
    let table = above(&table, (forms::CALL, 0), other);
    assert_eq!(has(&table), nodes);
    Some((tokens, within_bounds(table)))
}

/// A cast to a type with so many arguments.
pub fn type_arguments(nodes: usize) -> Constructed {
    let mut tokens = vec![NAME, AS];
    let mut room = nodes - 3;
    if room % 2 == 1 {
        tokens.push(AND);
        room -= 1;
    }
    tokens.extend([NAME, LESS]);
    for argument in 0..room / 2 {
        if argument > 0 {
            tokens.push(COMMA);
        }
        tokens.push(UNDERSCORE);
    }
    tokens.push(GREATER);
    let mut ty =
        above(&links(room / 2, &[forms::TYPE_INFER, 0, 0, 0, 0, 0]), (forms::TYPE_PATH, 2), None);
    ty[FIRST..=SECOND].copy_from_slice(&[0, 2]);
    if tokens[2] == AND {
        ty = above(&ty, (forms::TYPE_REFERENCE, 0), None);
    }
    let table = above(&ty, (forms::CAST, 0), Some((0, &PATH_CELLS)));
    assert_eq!(table.len() / NODE_CELLS, nodes);
    (tokens, within_bounds(table))
}

/// The most pairs round a name, with one token to spare.
pub const MOST_PAIRS: usize = (MOST_TOKENS - 1) / 2;

/// A name, or one with a prefix, or a Struct in so many parentheses.
pub fn grouped(pairs: usize, inner: &[u16]) -> Constructed {
    const NEGATED: [u16; 2 * NODE_CELLS] =
        [forms::UNARY, 0, 2, 2, 0, 0, forms::PATH, 0, 0, 0, 0, 0];
    let table = match inner {
        [NAME] => &PATH_CELLS[..],
        [MINUS, NAME] => &NEGATED[..],
        [STRUCT] => &STRUCT_CELLS[..],
        _ => panic!("neither {inner:?}"),
    };
    let mut tokens = vec![OPEN; pairs];
    tokens.extend(inner);
    tokens.extend(vec![CLOSE; pairs]);
    let verdict = if tokens.len() > MOST_TOKENS { Err(14) } else { within_bounds(table.to_vec()) };
    (tokens, verdict)
}

/// Each list with symbols.
fn all_named(lists: Vec<Constructed>, seed: u64) -> Vec<Named> {
    let with_symbols = |(index, list)| named(list, &mut Dice::new(seed + 4, index));
    (0..).zip(lists).map(with_symbols).collect()
}

/// Lists at the bounds of 14 and 16, and just below and above them, with their verdicts in a
/// context.
pub fn constructed(context: u16, seed: u64) -> Vec<Named> {
    let mut lists = Vec::new();
    for path in [2, MOST_LEVELS - 1, MOST_LEVELS, MOST_LEVELS + 1, MOST_LEVELS + 2, 600, 3_000] {
        lists.extend(NESTS.iter().map(|nest| nest.of(path)));
        lists.extend(NESTS.iter().map(|nest| nest.over_struct(path, context)));
        lists.push(type_nest(path, false));
        lists.push(type_nest(path, true));
    }
    for nodes in MOST_NODES - 3..=MOST_NODES + 3 {
        lists.push(type_arguments(nodes));
        for index in 0..12 {
            let dice = &mut Dice::new(seed, index);
            let tree = drawn(dice, seed, [40, 400, 4_000][index as usize % 3]);
            lists.extend(called(&tree, nodes));
        }
    }
    lists.push(type_arguments(10_001));
    for pairs in [1, 127, 128, 129, 4_096, MOST_PAIRS - 1, MOST_PAIRS, MOST_PAIRS + 1] {
        lists.push(grouped(pairs, &[NAME]));
        lists.push(grouped(pairs, &[MINUS, NAME]));
        lists.push(grouped(pairs, &[STRUCT]));
    }
    for pairs in [1, 128, 4_096, MOST_PAIRS] {
        let mut short = grouped(pairs, &[NAME]).0;
        short.pop();
        lists.push((short, Err(15)));
    }
    // What has no reading however long it is.
    for length in [MOST_TOKENS - 1, MOST_TOKENS, MOST_TOKENS + 1] {
        let verdict = if length > MOST_TOKENS { Err(14) } else { Err(15) };
        for code in [NAME, MINUS, OPEN, COMMA, GREATER, STRUCT] {
            lists.push((vec![code; length], verdict.clone()));
        }
    }
    for code in [CODES, CODES + 1, 127, 128, 255, 256, 16_384, 65_535] {
        lists.push((vec![code], Err(14)));
        lists.push((vec![NAME, MINUS, code], Err(14)));
        lists.push((vec![code, MINUS, NAME], Err(14)));
        lists.push((vec![CLOSE, code], Err(14)));
    }
    lists.push((Vec::new(), Err(15)));
    all_named(lists, seed)
}

/// A list whose last token closes a list of items, with so many commas before it. One
/// leaves the verdict as it is, but for a list that is too long then.
pub fn with_last_comma((mut tokens, verdict): Constructed, commas: usize) -> Constructed {
    let last = tokens.len() - 1;
    tokens.splice(last..last, vec![COMMA; commas]);
    let verdict = match commas {
        _ if tokens.len() > MOST_TOKENS => Err(14),
        0 | 1 => verdict,
        _ => Err(15),
    };
    (tokens, verdict)
}

/// Nests of lists of one item, each with a comma after it.
const COMMA_NESTS: [Nest; 3] = [
    Nest {
        before: &[],
        behind: &[OPEN, NAME, COMMA, CLOSE],
        node: (forms::CALL, 0),
        other: Some((1, &LINK_TO_PATH)),
    },
    Nest {
        before: &[],
        behind: &[DOT, NAME, OPEN, NAME, COMMA, CLOSE],
        node: (forms::METHOD_CALL, 0),
        other: Some((1, &LINK_TO_PATH)),
    },
    Nest {
        before: &[],
        behind: &[OPEN_BRACKET, NAME, OPEN, NAME, COMMA, CLOSE, CLOSE_BRACKET],
        node: (forms::INDEX, 0),
        other: Some((1, &CALL_OF_PATH)),
    },
];

const CALL_OF_PATH: [u16; 4 * NODE_CELLS] = {
    let mut cells = [0; 4 * NODE_CELLS];
    let nodes =
        [[forms::CALL, 0, 0, 2, 3, 0], PATH_CELLS, [forms::LINK, 0, 0, 4, 0, 0], PATH_CELLS];
    let mut at = 0;
    while at < cells.len() {
        cells[at] = nodes[at / NODE_CELLS][at % NODE_CELLS];
        at += 1;
    }
    cells
};

/// A name called with a name in so many parentheses, and a comma behind it or not.
pub fn called_with_grouped(pairs: usize, commas: usize) -> Constructed {
    let mut tokens = vec![NAME, OPEN];
    tokens.extend(grouped(pairs, &[NAME]).0);
    tokens.push(CLOSE);
    with_last_comma((tokens, within_bounds(CALL_OF_PATH.to_vec())), commas)
}

/// A list with a `?` behind it.
pub fn tried((mut tokens, verdict): Constructed) -> Constructed {
    tokens.push(QUESTION);
    let verdict = match verdict {
        _ if tokens.len() > MOST_TOKENS => Err(14),
        Ok(table) => within_bounds(above(&table, (forms::TRY, 0), None)),
        refused => refused,
    };
    (tokens, verdict)
}

/// Lists with commas after last items at the bounds of 14 and 16: paths, nodes and tokens;
/// the same with two commas, or none.
pub fn constructed_with_commas(seed: u64) -> Vec<Named> {
    let mut lists = Vec::new();
    for path in [2, MOST_LEVELS - 1, MOST_LEVELS, MOST_LEVELS + 1, 600] {
        lists.extend(COMMA_NESTS.iter().map(|nest| nest.of(path)));
    }
    for path in [3, MOST_LEVELS - 1, MOST_LEVELS, MOST_LEVELS + 1, 600] {
        // The type arguments of each level end in `>`, and so does what stands in them.
        let (tokens, verdict) = type_nest(path, true);
        let comma = |code: u16| (code == GREATER).then_some(COMMA);
        let tokens = tokens.iter().flat_map(|&code| [comma(code), Some(code)]).flatten().collect();
        lists.push((tokens, verdict));
    }
    for commas in 0..3 {
        for nodes in MOST_NODES - 2..=MOST_NODES + 2 {
            lists.push(with_last_comma(type_arguments(nodes), commas));
            for index in 0..3 {
                let tree =
                    drawn(&mut Dice::new(seed, index), seed, [40, 400, 4_000][index as usize]);
                lists.extend(called(&tree, nodes).map(|list| with_last_comma(list, commas)));
            }
        }
        // Four tokens are the call's.
        for pairs in [0, 1, 127, 128, 4_096, MOST_PAIRS - 3, MOST_PAIRS - 2, MOST_PAIRS - 1] {
            lists.push(called_with_grouped(pairs, commas));
            lists.push(tried(called_with_grouped(pairs, commas)));
        }
    }
    all_named(lists, seed)
}
