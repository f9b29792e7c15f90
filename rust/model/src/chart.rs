//! Every reading of a token list, by every way to cut it.
//!
//! For each span of the list the chart holds all expressions, types and lists
//! that the grammar of `rules` gives for just these tokens, each with what
//! the rules for its neighbours ask: how tightly it holds together, and whether
//! it ends in a type name or in the name behind a dot; and with whether a Struct stands in
//! it outside every parenthesis, bracket and argument list, which has no reading in a
//! condition: one chart holds the readings in every context. A node has the symbol of the
//! token that names it. An expression of a span is a shorter one at its start, what may
//! follow that, and whatever the rest can be. Nothing is decided by looking ahead, and no
//! cut is preferred to another: all that fit are kept, and those that give equal trees are
//! one.

use crate::codes::*;
use crate::contexts;
use crate::forms::{self, LINK};
use crate::rules::*;
use crate::sizes::NODE_CELLS;
use crate::table::FIRST;

/// A node of a tree; operands are positions in the chart's nodes.
#[derive(Copy, Clone, PartialEq, Eq, Debug)]
struct Node {
    form: u16,
    detail: u16,
    operands: [Option<u32>; 2],
    /// Of the name, literal or numbered member that is the node's own, 0 without one.
    symbol: u16,
}

impl Node {
    fn new(form: u16, detail: u16, operands: [Option<u32>; 2]) -> Node {
        Node { form, detail, operands, symbol: 0 }
    }

    fn with(self, token: Token) -> Node {
        Node { symbol: token.symbol, ..self }
    }
}

/// What stands at the end of a span.
#[derive(Copy, Clone, PartialEq, Eq, Debug)]
enum End {
    /// A name that is a type.
    TypeName,
    /// A dot and a name.
    DotName,
    Other,
}

/// What the rules ask of something that the tokens of a span can be. Lists and types have
/// no level.
#[derive(Copy, Clone, PartialEq, Eq, Debug)]
struct Traits {
    level: Level,
    end: End,
    /// Whether it holds a Struct outside every parenthesis, bracket and argument list.
    bare_struct: bool,
}

impl Traits {
    /// What asks nothing of its neighbours.
    const CLOSED: Traits = Traits { level: TIGHTEST, end: End::Other, bare_struct: false };

    fn ending(end: End) -> Traits {
        Traits { end, ..Traits::CLOSED }
    }
}

/// Something that the tokens of a span can be.
#[derive(Copy, Clone, Debug)]
struct Found {
    tree: u32,
    traits: Traits,
}

#[derive(Copy, Clone, PartialEq, Eq)]
enum Class {
    Expression,
    Type,
    ExpressionList,
    TypeList,
}

const CLASSES: usize = 4;

/// Where that which was found for a span stands, by class.
type Span = [(u32, u32); CLASSES];

/// How much there was of everything before a token came.
struct Mark {
    nodes: usize,
    found: [usize; CLASSES],
}

/// The spans of a token list that grows and shrinks at its end.
pub struct Chart {
    rules: Rules,
    tokens: Vec<Token>,
    codes: Vec<u16>,
    nodes: Vec<Node>,
    found: [Vec<Found>; CLASSES],
    /// The span from `i` to `j` stands at `j (j - 1) / 2 + i`.
    spans: Vec<Span>,
    /// The ends of the expressions that begin at a token, and those of the types.
    ends: Vec<[Vec<usize>; 2]>,
    marks: Vec<Mark>,
}

impl Chart {
    pub fn new(rules: Rules) -> Self {
        Chart {
            rules,
            tokens: Vec::new(),
            codes: Vec::new(),
            nodes: Vec::new(),
            found: [(); CLASSES].map(|()| Vec::new()),
            spans: Vec::new(),
            ends: Vec::new(),
            marks: Vec::new(),
        }
    }

    pub fn tokens(&self) -> &[Token] {
        &self.tokens
    }

    /// Another token at the end.
    pub fn push(&mut self, token: Token) {
        let found = [0, 1, 2, 3].map(|class| self.found[class].len());
        self.marks.push(Mark { nodes: self.nodes.len(), found });
        let at = self.codes.len();
        self.tokens.push(token);
        self.codes.push(token.code);
        self.spans.resize(self.spans.len() + at + 1, [(0, 0); CLASSES]);
        if self.ends.len() == at {
            self.ends.push([Vec::new(), Vec::new()]);
        }
        for from in (0..=at).rev() {
            self.fill(from, at + 1);
        }
    }

    /// The last token goes.
    pub fn pop(&mut self) {
        let mark = self.marks.pop().expect("a token");
        let to = self.codes.len();
        self.tokens.pop();
        self.codes.pop();
        self.nodes.truncate(mark.nodes);
        for (found, length) in self.found.iter_mut().zip(mark.found) {
            found.truncate(length);
        }
        self.spans.truncate(self.spans.len() - to);
        for ends in self.ends[..to].iter_mut().flatten() {
            if ends.last() == Some(&to) {
                ends.pop();
            }
        }
    }

    /// Another list.
    pub fn read(&mut self, tokens: &[Token]) {
        while !self.tokens.is_empty() {
            self.pop();
        }
        for &token in tokens {
            self.push(token);
        }
    }

    /// What was found for a span.
    fn of(&self, class: Class, from: usize, to: usize) -> std::ops::Range<usize> {
        if from >= to {
            return 0..0;
        }
        let (start, end) = self.spans[to * (to - 1) / 2 + from][class as usize];
        start as usize..end as usize
    }

    fn at(&self, class: Class, index: usize) -> Found {
        self.found[class as usize][index]
    }

    /// Adds what a span can be, if it was not found before.
    fn add(&mut self, class: Class, start: usize, node: Node, traits: Traits) {
        let before = &self.found[class as usize][start..];
        let same = |found: &Found| {
            found.traits == traits && self.equal_nodes(self.nodes[found.tree as usize], node)
        };
        if before.iter().any(same) {
            return;
        }
        let tree = self.nodes.len() as u32;
        self.nodes.push(node);
        self.found[class as usize].push(Found { tree, traits });
    }

    /// Adds an expression in parentheses, which leave no node.
    fn add_group(&mut self, start: usize, inner: Found) {
        let bare_struct = self.bare_inside(inner, Change::StructBarredInGroup);
        let traits = Traits { bare_struct, ..Traits::CLOSED };
        if self.rules.has(Change::GroupsLeaveNodes) {
            let node = Node::new(forms::PAREN, 0, [Some(inner.tree), None]);
            return self.add(Class::Expression, start, node, traits);
        }
        let same = |found: &Found| found.traits == traits && self.equal(found.tree, inner.tree);
        if !self.found[Class::Expression as usize][start..].iter().any(same) {
            self.found[Class::Expression as usize].push(Found { tree: inner.tree, traits });
        }
    }

    /// Whether a Struct that stands bare inside a pair or a list stands bare outside of it:
    /// only if a change says so.
    fn bare_inside(&self, inner: Found, change: Change) -> bool {
        inner.traits.bare_struct && self.rules.has(change)
    }

    /// Whether a Struct stands bare in what begins with an expression, if something follows.
    fn bare_before(&self, left: Found) -> bool {
        left.traits.bare_struct && !self.rules.has(Change::StructBarredAtEndOnly)
    }

    fn equal(&self, one: u32, other: u32) -> bool {
        one == other || self.equal_nodes(self.nodes[one as usize], self.nodes[other as usize])
    }

    fn equal_nodes(&self, one: Node, other: Node) -> bool {
        let same = |operands: (Option<u32>, Option<u32>)| match operands {
            (None, None) => true,
            (Some(one), Some(other)) => self.equal(one, other),
            _ => false,
        };
        (one.form, one.detail, one.symbol) == (other.form, other.detail, other.symbol)
            && one.operands.into_iter().zip(other.operands).all(same)
    }

    /// Finds all that a span can be, when all shorter spans with its end and all
    /// spans with an earlier end are done.
    fn fill(&mut self, from: usize, to: usize) {
        let starts = [0, 1, 2, 3].map(|class| self.found[class].len());
        self.expressions(from, to, starts[Class::Expression as usize]);
        self.types(from, to, starts[Class::Type as usize]);
        // Lists are asked for behind an opening and behind a comma only.
        let before = from.checked_sub(1).map(|before| self.codes[before]);
        if matches!(before, Some(OPEN | COMMA)) {
            self.lists(Class::Expression, Class::ExpressionList, from, to, starts);
        }
        if matches!(before, Some(LESS | COMMA)) {
            self.lists(Class::Type, Class::TypeList, from, to, starts);
        }
        for (class, start) in starts.into_iter().enumerate() {
            let end = self.found[class].len();
            self.spans[to * (to - 1) / 2 + from][class] = (start as u32, end as u32);
            if class < 2 && end > start {
                self.ends[from][class].push(to);
            }
        }
    }

    /// The expressions of a span.
    fn expressions(&mut self, from: usize, to: usize, start: usize) {
        use Class::Expression;
        let (first, last) = (self.codes[from], self.codes[to - 1]);
        if to - from == 1 {
            let (form, traits) = match first {
                NAME => (forms::PATH, Traits::CLOSED),
                LITERAL => (forms::LIT, Traits::CLOSED),
                STRUCT if self.rules.has(Change::StructLikePrefix) => {
                    (forms::STRUCT, Traits { level: PREFIX, end: End::Other, bare_struct: true })
                }
                STRUCT => (forms::STRUCT, Traits { bare_struct: true, ..Traits::CLOSED }),
                _ => return,
            };
            let node = Node::new(form, 0, [None, None]).with(self.tokens[from]);
            return self.add(Expression, start, node, traits);
        }
        let level = self.rules.level(PREFIX);
        if let Some((form, detail)) = self.rules.prefix(first) {
            for index in self.of(Expression, from + 1, to) {
                let operand = self.at(Expression, index);
                if operand.traits.level >= PREFIX {
                    let node = Node::new(form, detail, [Some(operand.tree), None]);
                    self.add(Expression, start, node, Traits { level, ..operand.traits });
                }
            }
        }
        if first == AND_AND && self.rules.has(Change::AndIsTwoReferences) {
            for index in self.of(Expression, from + 1, to) {
                let operand = self.at(Expression, index);
                if operand.traits.level >= PREFIX {
                    let inner = self.nodes.len() as u32;
                    let reference = |tree| Node::new(forms::REFERENCE, 0, [Some(tree), None]);
                    self.nodes.push(reference(operand.tree));
                    let traits = Traits { level: PREFIX, ..operand.traits };
                    self.add(Expression, start, reference(inner), traits);
                }
            }
        }
        if (first, last) == (OPEN, CLOSE) {
            for end in self.ends_inside(from, to, Change::CommaInGroup) {
                for index in self.of(Expression, from + 1, end) {
                    let inner = self.at(Expression, index);
                    self.add_group(start, inner);
                }
            }
        }
        for place in 0..self.ends[from][0].len() {
            let cut = self.ends[from][0][place];
            for index in self.of(Expression, from, cut) {
                let left = self.at(Expression, index);
                self.followed(left, cut, to, start);
            }
        }
    }

    /// The expressions that an expression begins which ends at a cut.
    fn followed(&mut self, left: Found, cut: usize, to: usize, start: usize) {
        use Class::{Expression, Type};
        let code = self.codes[cut];
        let closed = |codes: &[u16], opening: usize, closing: u16| {
            opening + 1 < to && codes[to - 1] == closing
        };
        let bare_before = self.bare_before(left);
        if let Some(infix) = self.rules.infix(code) {
            let barred = left.traits.end == End::TypeName && self.rules.not_after_type_name(code);
            if left.traits.level < infix.left || barred {
                return;
            }
            for index in self.of(Expression, cut + 1, to) {
                let right = self.at(Expression, index);
                if right.traits.level >= infix.right {
                    let operands = [Some(left.tree), Some(right.tree)];
                    let node = Node::new(infix.form, infix.detail, operands);
                    let bare_struct = bare_before || right.traits.bare_struct;
                    let traits = Traits { level: infix.level, end: right.traits.end, bare_struct };
                    self.add(Expression, start, node, traits);
                }
            }
            return;
        }
        if code == AS {
            let level = self.rules.level(CAST);
            if left.traits.level >= level {
                for index in self.of(Type, cut + 1, to) {
                    let ty = self.at(Type, index);
                    let operands = [Some(left.tree), Some(ty.tree)];
                    let node = Node::new(forms::CAST, 0, operands);
                    let traits = Traits { level, end: ty.traits.end, bare_struct: bare_before };
                    self.add(Expression, start, node, traits);
                }
            }
            return;
        }
        if left.traits.level < TIGHTEST {
            return;
        }
        let one = |form, detail| Node::new(form, detail, [Some(left.tree), None]);
        let traits = Traits { bare_struct: bare_before, ..Traits::CLOSED };
        match code {
            QUESTION if cut + 1 == to => self.add(Expression, start, one(forms::TRY, 0), traits),
            DOT if cut + 2 == to => {
                let member = self.tokens[cut + 1];
                let (node, end) = match member.code {
                    NAME => (one(forms::FIELD, 0).with(member), End::DotName),
                    MEMBER => (one(forms::FIELD, 1).with(member), End::Other),
                    AWAIT => (one(forms::AWAIT, 0), End::Other),
                    _ => return,
                };
                self.add(Expression, start, node, Traits { end, ..traits });
            }
            DOT if closed(&self.codes, cut + 2, CLOSE)
                && self.codes[cut + 1..cut + 3] == [NAME, OPEN] =>
            {
                let call = one(forms::METHOD_CALL, 0).with(self.tokens[cut + 1]);
                self.called(call, cut + 3, to - 1, start, bare_before);
            }
            OPEN if closed(&self.codes, cut, CLOSE) => {
                let barred = match left.traits.end {
                    End::DotName => !self.rules.has(Change::FieldIsCalled),
                    _ => {
                        self.codes[cut - 1] == MEMBER && self.rules.has(Change::NumberedIsNotCalled)
                    }
                };
                if !barred {
                    self.called(one(forms::CALL, 0), cut + 1, to - 1, start, bare_before);
                }
            }
            OPEN_BRACKET if closed(&self.codes, cut, CLOSE_BRACKET) => {
                for end in self.ends_inside(cut, to, Change::CommaAfterIndex) {
                    for index in self.of(Expression, cut + 1, end) {
                        let inner = self.at(Expression, index);
                        let operands = [Some(left.tree), Some(inner.tree)];
                        let node = Node::new(forms::INDEX, 0, operands);
                        let inside = self.bare_inside(inner, Change::StructBarredInIndex);
                        let traits = Traits { bare_struct: bare_before || inside, ..traits };
                        self.add(Expression, start, node, traits);
                    }
                }
            }
            _ => {}
        }
    }

    /// Where the one expression in a pair ends: before what closes it, and if a change
    /// says so before a comma there.
    fn ends_inside(
        &self,
        opening: usize,
        to: usize,
        change: Change,
    ) -> impl Iterator<Item = usize> {
        let comma = self.rules.has(change) && opening + 2 < to && self.codes[to - 2] == COMMA;
        std::iter::once(to - 1).chain(comma.then_some(to - 2))
    }

    /// Whether a list without items is what stands here.
    fn is_empty(&self, from: usize, to: usize, never: Change) -> bool {
        let comma = self.rules.has(Change::CommaInEmptyList) && self.codes[from..to] == [COMMA];
        from == to && !self.rules.has(never) || comma
    }

    /// The calls, of which one without arguments is given, with the arguments of a span,
    /// which may be empty; whether a Struct stands bare before them is given too.
    fn called(&mut self, call: Node, from: usize, to: usize, start: usize, bare_before: bool) {
        use Class::{Expression, ExpressionList};
        let add = |chart: &mut Chart, arguments, inside: bool| {
            let operands = [call.operands[0], arguments];
            let node = Node { operands, ..call };
            let traits = Traits { bare_struct: bare_before || inside, ..Traits::CLOSED };
            chart.add(Expression, start, node, traits);
        };
        if self.is_empty(from, to, Change::NoEmptyArguments) {
            add(self, None, false);
        }
        for index in self.of(ExpressionList, from, to) {
            let list = self.at(ExpressionList, index);
            let inside = self.bare_inside(list, Change::StructBarredInArguments);
            add(self, Some(list.tree), inside);
        }
    }

    /// The types of a span.
    fn types(&mut self, from: usize, to: usize, start: usize) {
        use Class::{Type, TypeList};
        let (first, last) = (self.codes[from], self.codes[to - 1]);
        if to - from == 1 {
            let (form, detail, end) = match first {
                NAME => (forms::TYPE_PATH, 1, End::TypeName),
                UNDERSCORE => (forms::TYPE_INFER, 0, End::Other),
                NOT => (forms::TYPE_NEVER, 0, End::Other),
                _ => return,
            };
            let node = Node::new(form, detail, [None, None]).with(self.tokens[from]);
            return self.add(Type, start, node, Traits::ending(end));
        }
        if let Some((form, detail)) = self.rules.type_prefix(first) {
            for index in self.of(Type, from + 1, to) {
                let operand = self.at(Type, index);
                let node = Node::new(form, detail, [Some(operand.tree), None]);
                self.add(Type, start, node, operand.traits);
            }
        }
        if to - from >= 3 && (first, self.codes[from + 1], last) == (NAME, LESS, GREATER) {
            let end = match self.rules.has(Change::NoLessAfterTypeArguments) {
                true => End::TypeName,
                false => End::Other,
            };
            let name = self.tokens[from];
            let add = |chart: &mut Chart, arguments| {
                let node = Node::new(forms::TYPE_PATH, 2, [None, arguments]).with(name);
                chart.add(Type, start, node, Traits::ending(end));
            };
            if self.is_empty(from + 2, to - 1, Change::NoEmptyTypeArguments) {
                add(self, None);
            }
            for index in self.of(TypeList, from + 2, to - 1) {
                let list = self.at(TypeList, index);
                add(self, Some(list.tree));
            }
        }
    }

    /// The lists of a span: an item, an item and a comma, or an item, a comma and a list.
    fn lists(
        &mut self,
        class: Class,
        list: Class,
        from: usize,
        to: usize,
        starts: [usize; CLASSES],
    ) {
        let start = starts[list as usize];
        let link = |item: Found, next| Node::new(LINK, 0, [Some(item.tree), next]);
        let of_items = |bare_struct| Traits { bare_struct, ..Traits::CLOSED };
        let comma_after_last = self.rules.comma_after_last(class == Class::Type);
        let two_commas = self.rules.has(Change::TwoCommasAfterLast);
        for index in starts[class as usize]..self.found[class as usize].len() {
            let item = self.at(class, index);
            self.add(list, start, link(item, None), of_items(item.traits.bare_struct));
        }
        for place in 0..self.ends[from][class as usize].len() {
            let cut = self.ends[from][class as usize][place];
            if self.codes[cut] != COMMA {
                continue;
            }
            let is_last = match to - cut {
                1 => comma_after_last,
                2 => two_commas && self.codes[cut + 1] == COMMA,
                _ => false,
            };
            for index in self.of(class, from, cut) {
                let item = self.at(class, index);
                let bare_struct = item.traits.bare_struct;
                if is_last {
                    self.add(list, start, link(item, None), of_items(bare_struct));
                }
                for index in self.of(list, cut + 1, to) {
                    let rest = self.at(list, index);
                    let traits = of_items(bare_struct || rest.traits.bare_struct);
                    self.add(list, start, link(item, Some(rest.tree)), traits);
                }
            }
        }
    }

    /// What the whole list can be in a context: in a condition no Struct stands bare.
    fn whole(&self, context: u16) -> impl Iterator<Item = Found> + '_ {
        let bars_structs = match context {
            contexts::CONDITION => !self.rules.has(Change::StructInCondition),
            _ => self.rules.has(Change::StructBarredInNone),
        };
        self.of(Class::Expression, 0, self.codes.len())
            .map(|index| self.at(Class::Expression, index))
            .filter(move |found| !(bars_structs && found.traits.bare_struct))
    }

    /// All readings of the list in a context.
    fn trees(&self, context: u16) -> Vec<u32> {
        let mut trees: Vec<u32> = Vec::new();
        for Found { tree, .. } in self.whole(context) {
            if !trees.iter().any(|&other| self.equal(other, tree)) {
                trees.push(tree);
            }
        }
        trees
    }

    /// All readings of the list in a context as node tables, parents before operands and
    /// the first operand's nodes before the second's.
    pub fn readings(&self, context: u16) -> Vec<Vec<u16>> {
        self.trees(context).into_iter().map(|tree| self.table(tree)).collect()
    }

    /// Whether there is no reading in a context.
    pub fn is_unread(&self, context: u16) -> bool {
        self.whole(context).next().is_none()
    }

    fn table(&self, root: u32) -> Vec<u16> {
        let mut cells = Vec::new();
        let mut waiting = vec![(root, None)];
        while let Some((tree, owner)) = waiting.pop() {
            let node = self.nodes[tree as usize];
            let start = cells.len();
            if let Some(place) = owner {
                cells[place] = (start / NODE_CELLS + 1) as u16;
            }
            cells.extend([node.form, 0, node.detail, 0, 0, node.symbol]);
            for place in [1, 0] {
                if let Some(operand) = node.operands[place] {
                    waiting.push((operand, Some(start + FIRST + place)));
                }
            }
        }
        cells
    }
}

#[cfg(test)]
mod tests {
    use super::*;
    use forms::{ASSIGN, BINARY, CALL, CAST, FIELD, METHOD_CALL, PATH, UNARY};

    /// The forms of the only reading in the order of their numbers, none if there is
    /// no reading. `a` is a name, and words are parted by spaces.
    fn forms_of(text: &str) -> Option<Vec<u16>> {
        forms_in(contexts::NONE, text)
    }

    fn forms_in(context: u16, text: &str) -> Option<Vec<u16>> {
        let codes: Vec<u16> = text.split_whitespace().map(code).collect();
        let readings = readings(context, &tokens(&codes));
        assert!(readings.len() < 2, "{text}");
        readings.first().map(|table| table.chunks(NODE_CELLS).map(|node| node[0]).collect())
    }

    fn readings(context: u16, tokens: &[Token]) -> Vec<Vec<u16>> {
        let mut chart = Chart::new(Rules::new(None));
        chart.read(tokens);
        chart.readings(context)
    }

    fn code(word: &str) -> u16 {
        match word {
            "a" => NAME,
            "0" => MEMBER,
            "S" => STRUCT,
            _ => (0..).zip(SPELLED).find(|(_, spelled)| *spelled == word).expect("a token").0,
        }
    }

    /// `a . b ( c , 1 ) . 2 . d as e < f > - ( g )`, with other symbols.
    #[test]
    fn symbols_travel_with_their_tokens() {
        let codes = [
            NAME, DOT, NAME, OPEN, NAME, COMMA, LITERAL, CLOSE, DOT, MEMBER, DOT, NAME, AS, NAME,
            LESS, NAME, GREATER, MINUS, OPEN, NAME, CLOSE,
        ];
        let mut list = tokens(&codes);
        for (token, symbol) in list.iter_mut().filter(|token| has_symbol(token.code)).zip(1..) {
            token.symbol = 7_000 * symbol;
        }
        let readings = readings(contexts::NONE, &list);
        let nodes: Vec<[u16; 2]> =
            readings[0].chunks(NODE_CELLS).map(|node| [node[0], node[5] / 7_000]).collect();
        let meant = [
            [BINARY, 0],
            [CAST, 0],
            [FIELD, 6],
            [FIELD, 5],
            [METHOD_CALL, 2],
            [PATH, 1],
            [LINK, 0],
            [PATH, 3],
            [LINK, 0],
            [forms::LIT, 4],
            [forms::TYPE_PATH, 7],
            [LINK, 0],
            [forms::TYPE_PATH, 8],
            [PATH, 9],
        ];
        assert_eq!(nodes, meant);
    }

    #[test]
    fn sums_lean_left_and_assignments_right() {
        assert_eq!(forms_of("a - a - a"), Some(vec![BINARY, BINARY, PATH, PATH, PATH]));
        assert_eq!(forms_of("a = a = a"), Some(vec![ASSIGN, PATH, ASSIGN, PATH, PATH]));
        assert_eq!(forms_of("a - ( a - a )"), Some(vec![BINARY, PATH, BINARY, PATH, PATH]));
    }

    #[test]
    fn comparisons_do_not_chain() {
        assert_eq!(forms_of("a < a == a"), None);
        assert_eq!(forms_of("( a < a ) == a"), Some(vec![BINARY, BINARY, PATH, PATH, PATH]));
    }

    #[test]
    fn less_after_a_type_name_opens_arguments() {
        assert_eq!(forms_of("a as a < a"), None);
        assert_eq!(forms_of("a as a << a"), None);
        assert_eq!(forms_of("- a as & a < a"), None);
        assert_eq!(forms_of("a as a <= a"), forms_of("( a as a ) < a"));
        assert_eq!(forms_of("a as a < > < a").map(|forms| forms.len()), Some(5));
    }

    #[test]
    fn dot_name_parenthesis_calls_a_method() {
        assert_eq!(forms_of("a . a ( )"), Some(vec![METHOD_CALL, PATH]));
        assert_eq!(forms_of("( a . a ) ( )"), Some(vec![CALL, FIELD, PATH]));
        assert_eq!(forms_of("a . 0 ( )"), Some(vec![CALL, FIELD, PATH]));
    }

    #[test]
    fn prefixes_hold_less_than_dots_and_more_than_casts() {
        assert_eq!(forms_of("- a . a"), Some(vec![UNARY, FIELD, PATH]));
        assert_eq!(forms_of("- a as a"), Some(vec![CAST, UNARY, PATH, forms::TYPE_PATH]));
    }

    #[test]
    fn conditions_have_no_bare_struct() {
        let parenthesised = [
            "( S )",
            "a == ( S )",
            "a [ S ]",
            "a ( S , - S )",
            "a . a ( S )",
            "( S == S ) . a",
            "( S . a ) ( )",
        ];
        for text in parenthesised {
            assert!(forms_of(text).is_some(), "{text}");
            assert_eq!(forms_in(contexts::CONDITION, text), forms_of(text), "{text}");
        }
        let bare = [
            "S",
            "a == S",
            "S == a",
            "- S",
            "S . a",
            "S ( )",
            "S . a ( )",
            "S [ a ]",
            "S ?",
            "S as a",
            "a = S",
            "( a ) ( S ) + S",
        ];
        for text in bare {
            assert!(forms_of(text).is_some(), "{text}");
            assert_eq!(forms_in(contexts::CONDITION, text), None, "{text}");
        }
        assert_eq!(forms_of("S . a"), Some(vec![FIELD, forms::STRUCT]));
        assert_eq!(forms_of("a as S"), None);
        assert_eq!(forms_of("a . S"), None);
    }

    #[test]
    fn lists_have_commas_between_items() {
        assert_eq!(forms_of(""), None);
        assert_eq!(forms_of("a ( )").map(|forms| forms.len()), Some(2));
        assert_eq!(forms_of("a ( a , a )").map(|forms| forms.len()), Some(6));
        assert_eq!(forms_of("a ( a a )"), None);
        assert_eq!(forms_of("a ( , a )"), None);
    }

    #[test]
    fn one_comma_may_follow_the_last_item() {
        for (with, without) in [
            ("a ( a , )", "a ( a )"),
            ("a ( a , a , )", "a ( a , a )"),
            ("a . a ( a , )", "a . a ( a )"),
            ("a as a < a , >", "a as a < a >"),
            ("a as a < a , a , > < a", "a as a < a , a > < a"),
            ("a ( a ( a , ) , ) ( - a , )", "a ( a ( a ) ) ( - a )"),
        ] {
            assert!(forms_of(with).is_some(), "{with}");
            assert_eq!(forms_of(with), forms_of(without));
        }
    }

    #[test]
    fn no_other_comma_follows_anything() {
        for text in [
            "a ( , )",
            "a ( a , , )",
            "( a , )",
            "a [ a , ]",
            "a as a < , >",
            "a . a ( , )",
            "a as a < a , , >",
            "a as a < a > ,",
            "a ,",
            "a ( a ) ,",
            "( a ( a ) , )",
        ] {
            assert_eq!(forms_of(text), None, "{text}");
        }
    }
}
