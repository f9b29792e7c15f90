//! Trees that are built: every form, type and label, random trees, bounds, and the numbers
//! of the enums.

use model::forms::{self, operator, LINK};
use model::generate::{Dice, Draft, Family, Order};
use model::table::{self, NodeTable};
use std::collections::HashSet;
use tezhukor::build::*;
use tezhukor::codes::SPELLED;
use tezhukor::sizes::{LAST_CONTEXT, MOST_LEVELS, MOST_NODES};
use tezhukor::{Binding, Node, Refusal, Tree};

/// A node of a table, built by the functions for its form.
struct Rebuilt<'a>(&'a NodeTable);

impl Rebuilt<'_> {
    fn node(&self, number: u16) -> table::Node {
        table::node(&self.0.cells, number)
    }

    fn any(&self, number: u16) -> Option<Expr> {
        (number != 0).then(|| self.expr(number))
    }

    /// The items of a list, from its first link on.
    fn items<T>(&self, mut link: u16, item: impl Fn(&Self, u16) -> T) -> Vec<T> {
        let mut items = Vec::new();
        while link != 0 {
            let [first, next] = self.node(link).operands;
            items.push(item(self, first));
            link = next;
        }
        items
    }

    fn expr(&self, number: u16) -> Expr {
        let table::Node { form, attributes, detail, operands: [first, second], symbol } =
            self.node(number);
        let (one, two) = (|| self.expr(first), || self.expr(second));
        let (label, mutability) = (Label::numbered(detail), Mutability::numbered(detail));
        let arguments = || self.items(second, Rebuilt::expr);
        let built = match Form::numbered(form).expect("a form") {
            Form::Array => array(),
            Form::Assign => assign(one(), two()),
            Form::Async => async_(),
            Form::Await => one().awaited(),
            Form::Binary => binary(Op::numbered(detail).expect("an operator"), one(), two()),
            Form::Block => block(label.expect("a label")),
            Form::Break => break_(label.expect("a label"), self.any(first)),
            Form::Call => call(one(), arguments()),
            Form::Cast => cast(one(), self.ty(second)),
            Form::Closure if detail == 0 => closure(one()),
            Form::Closure => closure_with_output(one()),
            Form::Const => const_(),
            Form::Continue => continue_(),
            Form::Field if detail == 0 => one().field(symbol),
            Form::Field => one().member(symbol),
            Form::ForLoop => for_loop(label.expect("a label")),
            Form::Group => group(one()),
            Form::If => if_(),
            Form::Index => one().index(two()),
            Form::Infer => infer(),
            Form::Let => let_(one()),
            Form::Lit => lit(symbol),
            Form::Loop => loop_(label.expect("a label")),
            Form::Macro => macro_call(Delimiter::numbered(detail).expect("a delimiter")),
            Form::Match => match_(),
            Form::MethodCall => one().method_call(symbol, arguments()),
            Form::Paren => paren(one()),
            Form::Path => path(symbol),
            Form::Range => {
                let limits = Limits::numbered(detail).expect("limits");
                range(limits, self.any(first), self.any(second))
            }
            Form::RawAddr => raw_addr(mutability.expect("one of two"), one()),
            Form::Reference => reference(mutability.expect("one of two"), one()),
            Form::Repeat => repeat(),
            Form::Return => return_(self.any(first)),
            Form::Struct => struct_(),
            Form::Try => one().question(),
            Form::TryBlock => try_block(),
            Form::Tuple => tuple(),
            Form::Unary => unary(UnaryOp::numbered(detail).expect("an operator"), one()),
            Form::Unsafe => unsafe_(),
            Form::Verbatim => verbatim(Ending::numbered(detail).expect("an ending")),
            Form::While => while_(label.expect("a label")),
            Form::Yield => yield_(self.any(first)),
        };
        built.with_attributes(Attributes::numbered(attributes).expect("attributes"))
    }

    fn ty(&self, number: u16) -> Type {
        let table::Node { form, detail, operands: [first, second], symbol, .. } = self.node(number);
        let one = || self.ty(first);
        let output = || (first != 0).then(one);
        let mutability = || Mutability::numbered(detail).expect("one of two");
        let bound = || match detail {
            1 => Bound::Bare,
            2 => Bound::Angle,
            3 => Bound::Parenthesised(output()),
            4 => Bound::Lifetime,
            5 => Bound::PreciseCapture,
            6 => Bound::Verbatim(Ending::Other),
            _ => Bound::Verbatim(Ending::Braces),
        };
        match TypeForm::numbered(form).expect("a type") {
            TypeForm::Array => ty::array(),
            TypeForm::FnPtr => ty::fn_ptr(output()),
            TypeForm::Group => ty::group(),
            TypeForm::ImplTrait => ty::impl_trait(bound()),
            TypeForm::Infer => ty::infer(),
            TypeForm::Macro => ty::macro_call(Delimiter::numbered(detail).expect("a delimiter")),
            TypeForm::Never => ty::never(),
            TypeForm::Paren => ty::paren(),
            TypeForm::Path => match detail {
                1 => ty::path(symbol),
                2 => ty::angle(symbol, self.items(second, Rebuilt::ty)),
                _ => ty::parenthesised(symbol, output()),
            },
            TypeForm::Ptr => ty::ptr(mutability(), one()),
            TypeForm::Reference => ty::reference(mutability(), one()),
            TypeForm::Slice => ty::slice(),
            TypeForm::TraitObject => ty::trait_object(bound()),
            TypeForm::Tuple => ty::tuple(),
            TypeForm::Verbatim => ty::verbatim(Ending::numbered(detail).expect("an ending")),
        }
    }
}

/// Builds the tree of an accepted table, and holds it to the model's numbering and to the
/// file that the library saves.
fn rebuilt(table: &NodeTable) -> Tree {
    let context = Context::numbered(table.context).expect("a context");
    let built = Rebuilt(table).expr(1).tree(context).expect("an accepted tree");
    assert_eq!(built.cells(), table.numbered().cells);
    assert_eq!(built.context(), table.context);
    assert_eq!(built.to_file(), table::write(&table.numbered()));
    assert_eq!(built, built.canonical());
    built
}

/// Random trees of all families, and of them the labels: every form with all attributes and
/// details that are accepted somewhere has been built.
#[test]
fn random_trees_are_the_models() {
    let (mut trees, mut labels) = (0, HashSet::new());
    for family in Family::ALL {
        for index in 0..1_200 {
            let table = family.tree(71, index);
            let tree = rebuilt(&table);
            let loaded = Tree::load(&table::write(&table)).expect("an accepted tree");
            assert_eq!(tree, loaded.canonical());
            let nodes = (1..=tree.count()).filter_map(|number| tree.node(number));
            labels.extend(nodes.map(|node| [node.form, node.attributes, node.detail]));
            trees += 1;
        }
    }
    for form in 1..=LINK {
        for attributes in 0..forms::attributes(form) {
            for detail in least_detail(form)..forms::details(form) {
                let label = [form, attributes, detail];
                assert!(labels.contains(&label), "{label:?} was not built in {trees} trees");
            }
        }
    }
}

/// Refusal 9 is about types without a segment or a bound.
fn least_detail(form: u16) -> u16 {
    let of_some = [forms::TYPE_PATH, forms::TYPE_IMPL_TRAIT, forms::TYPE_TRAIT_OBJECT];
    u16::from(of_some.contains(&form))
}

/// An expression made of a tree is that tree, however its nodes were numbered, and can be
/// part of another.
#[test]
fn trees_are_taken_over() {
    for index in 0..400 {
        let (table, dice) = (Family::Mixed.tree(72, index), &mut Dice::new(73, index));
        let other = Draft::of(&table).number(table.context, Order::any(dice), dice);
        let tree = Tree::load(&table::write(&other)).expect("an accepted tree");
        let context = Context::numbered(tree.context()).expect("a context");
        assert_eq!(Expr::from(&tree).tree(context), Ok(tree.canonical()));
        let in_parens = paren(Expr::from(&tree)).tree(context);
        match tree.canonical().count() {
            4_096 => assert_eq!(in_parens, Err(Unbuilt::Size)),
            _ if in_parens == Err(Unbuilt::Depth) => {}
            _ => {
                assert_eq!(in_parens.expect("a tree").cells(), table.numbered().in_parens(1).cells)
            }
        }
    }
}

/// A sum of so many nodes more than one, twice that many in all, and one.
fn sums(most: usize) -> Expr {
    let level = |terms: Vec<Expr>| {
        let pairs = terms.chunks(2).map(|pair| match pair {
            [left, right] => binary(Op::Add, left.clone(), right.clone()),
            _ => pair[0].clone(),
        });
        pairs.collect::<Vec<_>>()
    };
    let mut terms: Vec<Expr> = (0..=most).map(|symbol| path(symbol as u16)).collect();
    while terms.len() > 1 {
        terms = level(terms);
    }
    terms.remove(0)
}

#[test]
fn most_nodes() {
    let odd = sums(2_047);
    assert_eq!(odd.tree(Context::None).map(|tree| tree.count()), Ok(4_095));
    let full = unary(UnaryOp::Neg, odd);
    assert_eq!(full.tree(Context::None).map(|tree| tree.count()), Ok(4_096));
    let more = full.question();
    assert_eq!(more.tree(Context::None), Err(Unbuilt::Size));
    assert_eq!(more.index(infer()).tree(Context::None), Err(Unbuilt::Size));
    assert_eq!(sums(2_048).tree(Context::None), Err(Unbuilt::Size));
    // Links count.
    let call_of = |count: usize| call(path(1), (0..count).map(|_| path(2))).tree(Context::None);
    assert_eq!(call_of(2_047).map(|tree| usize::from(tree.count())), Ok(MOST_NODES));
    assert_eq!(call_of(2_048), Err(Unbuilt::Size));
    let arguments = |count: usize| ty::angle(1, (0..count).map(|_| ty::infer()));
    assert!(cast(lit(1), arguments(2_046)).tree(Context::None).is_ok());
    assert_eq!(cast(lit(1), arguments(2_047)).tree(Context::None), Err(Unbuilt::Size));
}

/// What doubles a hundred times is counted up to the largest number, and not kept.
#[test]
fn far_more_nodes() {
    let double = |part: Expr| binary(Op::Mul, part.clone(), part);
    let doubled = (0..100).fold(path(1), |part, _| double(part));
    assert_eq!(doubled.tree(Context::None), Err(Unbuilt::Size));
    let long = (0..100_000).fold(path(1), |part, _| part.awaited());
    assert_eq!(long.tree(Context::None), Err(Unbuilt::Size));
    let types = (0..100_000).fold(ty::never(), |ty, _| ty::ptr(Mutability::Mut, ty));
    assert_eq!(path(1).cast(types).tree(Context::None), Err(Unbuilt::Size));
    assert_eq!(call(long, [doubled]).tree(Context::None), Err(Unbuilt::Size));
}

#[test]
fn most_levels() {
    let nest = |levels: usize| (1..levels).fold(path(1), |part, _| unary(UnaryOp::Not, part));
    for context in Context::ALL {
        assert!(nest(MOST_LEVELS).tree(*context).is_ok());
        assert_eq!(nest(MOST_LEVELS + 1).tree(*context), Err(Unbuilt::Depth));
    }
    // Links are not counted.
    let deep_argument = |levels| call(path(1), [path(2), nest(levels)]).tree(Context::None);
    assert!(deep_argument(MOST_LEVELS - 1).is_ok());
    assert_eq!(deep_argument(MOST_LEVELS), Err(Unbuilt::Depth));
    let types =
        |levels: usize| (1..levels).fold(ty::infer(), |ty, _| ty::reference(Mutability::Const, ty));
    assert!(path(1).cast(types(MOST_LEVELS - 1)).tree(Context::None).is_ok());
    assert_eq!(path(1).cast(types(MOST_LEVELS)).tree(Context::None), Err(Unbuilt::Depth));
}

/// Of several reasons the first by number is told, as for any tree.
#[test]
fn reasons() {
    let deep = (0..200).fold(path(1), |part, _| part.question());
    let bad_body = |body: Expr| closure_with_output(body).tree(Context::None);
    assert!(bad_body(block(Label::None)).is_ok());
    assert_eq!(bad_body(block(Label::Written)), Err(Unbuilt::ClosureBody));
    assert_eq!(bad_body(paren(block(Label::None))), Err(Unbuilt::ClosureBody));
    assert_eq!(bad_body(deep.clone()), Err(Unbuilt::ClosureBody));
    for attributes in [Attributes::Inner, Attributes::Outer] {
        let body = block(Label::None).with_attributes(attributes);
        assert_eq!(bad_body(body), Err(Unbuilt::ClosureBody));
    }
    let closures = (0..3_000).map(|_| closure_with_output(path(1)));
    assert_eq!(call(deep, closures).tree(Context::None), Err(Unbuilt::Size));
    let refusals = Unbuilt::ALL.map(Refusal::from);
    assert_eq!(refusals, [Refusal::Count, Refusal::ClosureBody, Refusal::Depth]);
    assert!(refusals.is_sorted());
    assert_eq!(Unbuilt::Depth.to_string(), Refusal::Depth.to_string());
}

#[test]
fn attributes_are_set() {
    let root = |expr: Expr| expr.tree(Context::None).expect("a tree").node(1).expect("a root");
    let outer = binary(Op::Add, path(1), path(2)).with_attributes(Attributes::Outer);
    assert_eq!(root(outer.clone()).attributes, 2);
    assert_eq!(root(outer.with_attributes(Attributes::None)).attributes, 0);
    // A Verbatim has none of its own.
    let verbatim = verbatim(Ending::Braces).with_attributes(Attributes::Outer);
    assert_eq!(root(verbatim), Node { form: forms::VERBATIM, detail: 1, ..Node::default() });
}

/// The numbers are those of the model's tables, and of the library where it is asked by them.
#[test]
fn numbers_agree() {
    let numbers = |form: &Form| form.number();
    assert!(Form::ALL.iter().map(numbers).eq(1..=40));
    assert!(TypeForm::ALL.iter().map(|form| form.number()).eq(41..=55));
    for form in Form::ALL {
        assert_eq!(forms::name(form.number()), Some(&format!("{form:?}")[..]));
        assert_eq!(forms::class(form.number()), Some(forms::Class::Expression));
        assert_eq!(Form::numbered(form.number()), Some(*form));
    }
    let class = |form: &TypeForm| forms::class(form.number());
    assert!(TypeForm::ALL.iter().all(|form| class(form) == Some(forms::Class::Type)));
    for other in [0, 41, 56, 57, u16::MAX] {
        assert_eq!(Form::numbered(other), None);
    }
    // Each detail that a form has is one of an enum.
    let details = forms::details;
    assert!(Op::ALL.iter().map(|op| op.number()).eq(0..details(forms::BINARY)));
    assert!(UnaryOp::ALL.iter().map(|op| op.number()).eq(0..details(forms::UNARY)));
    for (count, form) in [
        (Delimiter::ALL.len(), forms::MACRO),
        (Delimiter::ALL.len(), forms::TYPE_MACRO),
        (Label::ALL.len(), forms::BLOCK),
        (Label::ALL.len(), forms::BREAK),
        (Label::ALL.len(), forms::WHILE),
        (Limits::ALL.len(), forms::RANGE),
        (Mutability::ALL.len(), forms::RAW_ADDR),
        (Mutability::ALL.len(), forms::TYPE_PTR),
        (Ending::ALL.len(), forms::VERBATIM),
        (Ending::ALL.len(), forms::TYPE_VERBATIM),
    ] {
        assert_eq!(count, usize::from(details(form)), "{:?}", forms::name(form));
    }
    assert_eq!(Attributes::ALL.len(), usize::from(forms::attributes(forms::PATH)));
    assert!(Context::ALL.iter().map(|context| context.number()).eq(0..=LAST_CONTEXT));
}

/// The operators: the model's names and spellings, and how the library binds them.
#[test]
fn operators_agree() {
    for (op, number) in [
        (Op::Add, operator::ADD),
        (Op::Sub, operator::SUB),
        (Op::Mul, operator::MUL),
        (Op::Rem, operator::REM),
        (Op::And, operator::AND),
        (Op::Or, operator::OR),
        (Op::BitXor, operator::BIT_XOR),
        (Op::BitAnd, operator::BIT_AND),
        (Op::BitOr, operator::BIT_OR),
        (Op::Shl, operator::SHL),
        (Op::Shr, operator::SHR),
        (Op::Eq, operator::EQ),
        (Op::Lt, operator::LT),
        (Op::Le, operator::LE),
        (Op::Gt, operator::GT),
        (Op::AddAssign, operator::ADD_ASSIGN),
    ] {
        assert_eq!(op.number(), number, "{op:?}");
    }
    let of_level = |level| Op::ALL.iter().filter(move |op| binding(op).level == level);
    let words = |level| of_level(level).map(|op| op.spelled()).collect::<Vec<_>>().join(" ");
    let assigning = "+= -= *= /= %= ^= &= |= <<= >>=";
    let levels = [assigning, "", "||", "&&", "", "== < <= != >= >", "|", "^", "&", "<< >>", "+ -"];
    assert_eq!((1..=11).map(words).collect::<Vec<_>>(), levels);
    assert_eq!(words(12), "* / %");
    assert_eq!(Op::ShrAssign.number() + 1, Binding::ASSIGN);
    let spelled: HashSet<_> = Op::ALL.iter().map(|op| op.spelled()).collect();
    assert_eq!(spelled.len(), Op::ALL.len());
    assert!(Op::ALL.iter().all(|op| SPELLED[usize::from(op.number())] == op.spelled()));
}

fn binding(op: &Op) -> Binding {
    Binding::of(op.number()).expect("an operator of the library")
}
