//! A sheet as a page to look at: one file that asks for nothing from elsewhere.

mod drawing;
mod markup;

use crate::answer::{words, Answer};
use crate::braced::Braced;
use crate::commands::{draft_text, names_text, tree_bytes};
use crate::draft::Shown;
use crate::kind::Kind;
use crate::{blame, edits, why};
use markup::{escaped, expression, Mark};
use std::collections::HashMap;
use std::ffi::{OsStr, OsString};
use tezhukor::text::{Names, Pair, Text};
use tezhukor::{forms, Node, Refusal, Sight, Tree};

const STYLE: &str = include_str!("page/page.css");
const SCRIPT: &str = include_str!("page/page.js");

/// What is asked for.
#[derive(Default)]
struct Asked<'a> {
    names: Option<&'a OsStr>,
    /// A node, and the expression that is put in its place.
    preview: Option<[&'a OsStr; 2]>,
}

/// The page of a file, of an edit of it, or of a draft.
pub fn page(arguments: &[OsString]) -> Result<Answer, Answer> {
    if let Some((_, rest)) = arguments.split_first().filter(|(option, _)| *option == "--draft") {
        let (context, text) = draft_text(rest)?;
        return Ok(Answer::done(of_draft(&Shown::read(context, &text)?)));
    }
    let (mut asked, mut rest) = (Asked::default(), arguments);
    loop {
        rest = match (rest, &asked) {
            ([option, names, rest @ ..], Asked { names: None, .. }) if option == "--names" => {
                asked.names = Some(names);
                rest
            }
            ([option, node, text, rest @ ..], Asked { preview: None, .. })
                if option == "--preview" =>
            {
                asked.preview = Some([node, text]);
                rest
            }
            ([file], _) if file != "--names" && file != "--preview" => return asked.page(file),
            _ => return Err(Answer::usage()),
        };
    }
}

impl Asked<'_> {
    fn page(&self, file: &OsStr) -> Result<Answer, Answer> {
        if let Some([node, text]) = self.preview {
            let edit = edits::seen_by(file, node, text, self.names)?;
            return Ok(Answer::done(of_edit(&edit)));
        }
        let names = Names::new(&names_text(self.names)?);
        let (kind, bytes) = (Kind::of(file), tree_bytes(file)?);
        match kind.load(&bytes) {
            Ok(tree) => Ok(Answer::done(of_tree(&tree, &names))),
            Err(refusal) => {
                let said = words(refusal, &blame::place(kind, refusal, &bytes));
                let page = of_refusal(refusal, &said, &blame::listed(kind, &bytes));
                Ok(Answer { output: page.into(), ..Answer::refused(said) })
            }
        }
    }
}

/// A whole page of what stands in its body.
fn whole(title: &str, body: &str) -> String {
    let title = escaped(title);
    format!(
        "<!doctype html>\n<html lang=\"en\">\n<head>\n<meta charset=\"utf-8\">\n\
         <meta name=\"viewport\" content=\"width=device-width, initial-scale=1\">\n\
         <meta http-equiv=\"Content-Security-Policy\" content=\"default-src 'none'; \
         style-src 'unsafe-inline'; script-src 'unsafe-inline'; img-src data:\">\n\
         <link rel=\"icon\" href=\"data:,\">\n<title>{title}</title>\n<style>\n{STYLE}</style>\n\
         </head>\n<body>\n<main>\n{body}</main>\n<script>\n{SCRIPT}</script>\n</body>\n</html>\n"
    )
}

fn of_tree(tree: &Tree, names: &Names) -> String {
    let shown = Text::new(tree, &tree.rows(), names).into();
    let sheet = seen(tree, &shown, names, |_| Mark::Added);
    whole(&shown.whole(), &format!("<h1>A sheet of {}</h1>\n{sheet}", size(tree)))
}

fn size(tree: &Tree) -> String {
    let context = ["", ", at the start of a statement", ", in a match arm", ", as a condition"];
    let context = context.get(usize::from(tree.context())).copied().unwrap_or("");
    match tree.count() {
        1 => format!("one node{context}"),
        count => format!("{count} nodes{context}"),
    }
}

/// How a pair is chosen.
const CHOOSE: &str = "Choose one, by a click or with Tab and Enter, to see what it prevents.";

/// The text with its pairs, what is said of each, and the tree.
fn seen(tree: &Tree, shown: &Braced, names: &Names, mark: impl Fn(&Pair) -> Mark) -> String {
    let hint = match shown.text.pairs() {
        [] => "No pair was added: none is needed.".to_string(),
        _ => format!("Each marked parenthesis was added. {CHOOSE}"),
    };
    let told = why::told(tree, names.clone());
    let reasons = shown.text.pairs().iter().map(|pair| said(&told, pair)).collect();
    parts(tree, shown, mark, &hint, reasons)
}

/// What is said of a pair, and behind it who asks for it.
fn said(told: &[why::Told], pair: &Pair) -> Reason {
    let is_it = |told: &&why::Told| (told.node, told.is_inner) == (pair.node, pair.is_inner);
    let said = told.iter().find(is_it).map_or("", |told| &told.said);
    let (first, behind) = said.split_once("\n  ").unwrap_or((said, ""));
    Reason { lines: vec![first.to_string()], behind: behind.to_string() }
}

/// What is shown where a pair is chosen.
#[derive(Default)]
struct Reason {
    lines: Vec<String>,
    behind: String,
}

/// The text, a hint below it, the reason of each pair in the order of the text, and the tree.
fn parts(
    tree: &Tree,
    shown: &Braced,
    mark: impl Fn(&Pair) -> Mark,
    hint: &str,
    reasons: Vec<Reason>,
) -> String {
    let reason = |(at, reason): (usize, &Reason)| {
        let line = |line: &String| format!("<p class=\"text\">{}</p>\n", escaped(line));
        format!(
            "<div class=\"reason\" id=\"reason-{at}\" hidden>\n{}<p class=\"soft\">{}</p>\n</div>\n",
            reason.lines.iter().map(line).collect::<String>(),
            escaped(&reason.behind)
        )
    };
    format!(
        "<p class=\"expression\">{}</p>\n<p class=\"soft hint\">{hint}</p>\n\
         <section id=\"reasons\" aria-live=\"polite\">\n{}</section>\n\
         <h2>The tree</h2>\n<div class=\"drawing\" tabindex=\"0\">\n{}</div>\n",
        expression(shown, &mark, true),
        reasons.iter().enumerate().map(reason).collect::<String>(),
        drawing::svg(tree, shown, &mark),
    )
}

/// What the marks of a draft say.
const LEGEND: &str = "<p class=\"soft legend\"><span><span class=\"open\">{ }</span> an operator \
    that is not chosen yet</span> <span><span class=\"pair\">( )</span> stands, whatever is \
    chosen</span> <span><span class=\"pair depends\">( )</span> depends on what is \
    chosen</span></p>\n";

/// A draft: the pairs that stand whatever is chosen, and those that depend on it.
fn of_draft(draft: &Shown) -> String {
    let depends = |pair: &Pair| draft.depends.contains(pair);
    let mark = |pair: &Pair| if depends(pair) { Mark::Depends } else { Mark::Added };
    let shown = &draft.braced;
    let hint = match (shown.text.pairs(), &draft.depends[..]) {
        ([], _) => "No pair is needed, whatever is chosen.".to_string(),
        (_, []) => format!("No pair depends on what is chosen. {CHOOSE}"),
        (_, [_]) => format!("One pair depends on what is chosen. {CHOOSE}"),
        (_, pairs) => format!("{} pairs depend on what is chosen. {CHOOSE}", pairs.len()),
    };
    let mut told = HashMap::new();
    let reason = |pair: &Pair| draft_reason(draft, pair, depends(pair), &mut told);
    let reasons = shown.text.pairs().iter().map(reason).collect();
    let body = parts(draft.tree(), shown, mark, &hint, reasons);
    let size = size(draft.tree());
    whole(&shown.whole(), &format!("<h1>A draft of {size}</h1>\n{LEGEND}{body}"))
}

/// With which choice a pair stands, and what it prevents then; with which it does not, and what
/// is written then. What is told of the pairs of a choice is kept.
fn draft_reason(
    draft: &Shown,
    pair: &Pair,
    depends: bool,
    told: &mut HashMap<String, Vec<why::Told>>,
) -> Reason {
    let Some((with, tree)) = draft.chosen(pair, true) else {
        return Reason::default();
    };
    let of_choice = || why::told(tree, draft.names.clone());
    let mut reason = said(told.entry(with.clone()).or_insert_with(of_choice), pair);
    let text = |tree: &Tree| Text::new(tree, &tree.rows(), &draft.names);
    let own = format!("({}): ", text(tree).of(pair.node));
    let [stands, with] = match (depends, &with[..]) {
        (true, _) => ["depends on what is chosen", &format!("with {with} it stands; ")],
        (false, "") => ["stands", ""],
        (false, _) => ["stands, whatever is chosen", &format!("with {with}, ")],
    };
    for line in &mut reason.lines {
        *line = format!("{with}{}", line.strip_prefix(&own).unwrap_or(line));
    }
    reason.lines.insert(0, format!("({}) {stands}", draft.braced.of(pair.node)));
    if let Some((without, tree)) = draft.chosen(pair, false) {
        reason.lines.push(format!("with {without} it is not needed: {}", text(tree)));
    }
    reason
}

/// A sheet before and after an edit.
fn of_edit(edit: &edits::Seen) -> String {
    let edits::Seen { tree, names, sight } = edit;
    let Sight { before, after, come, go } = sight;
    let lines: String = edits::told_all(sight)
        .iter()
        .map(|line| format!("<p class=\"text\">{}</p>\n", escaped(line)))
        .collect();
    let goes = |pair: &Pair| if go.contains(pair) { Mark::Goes } else { Mark::Added };
    let comes = |pair: &Pair| if come.contains(pair) { Mark::Comes } else { Mark::Added };
    let body = format!(
        "<h1>An edit, before and after</h1>\n<h2>Before</h2>\n<p class=\"expression\">{}</p>\n\
         <h2>After</h2>\n{lines}{}",
        expression(&before.clone().into(), goes, false),
        seen(tree, &after.clone().into(), names, comes),
    );
    whole(after.as_str(), &body)
}

/// A refused file: the refusal, and the nodes as far as they can be told.
fn of_refusal(refusal: Refusal, said: &str, nodes: &[Node]) -> String {
    let blamed = blame::node(refusal, nodes);
    let row = |(number, node): (usize, &Node)| {
        let class = if blamed == Some(number) { " class=\"marked\"" } else { "" };
        let name = forms::name(node.form).unwrap_or("no form");
        let cells: String = node.cells().iter().map(|cell| format!("<td>{cell}</td>")).collect();
        format!("<tr{class}><td>{number}</td><td class=\"name\">{name}</td>{cells}</tr>\n")
    };
    let rows: String = (1..).zip(nodes).map(row).collect();
    let table = match &rows[..] {
        "" => String::new(),
        _ => format!(
            "<h2>Its nodes, as far as they can be told</h2>\n<div class=\"wide\"><table>\n\
             <tr><th>node</th><th class=\"name\">form</th><th>form</th><th>attributes</th>\
             <th>detail</th><th>first</th><th>second</th><th>symbol</th></tr>\n\
             {rows}</table></div>\n"
        ),
    };
    let said = escaped(said);
    let body = format!("<h1>No sheet</h1>\n<p class=\"expression\">{said}</p>\n{table}");
    whole("A file that is no sheet", &body)
}
