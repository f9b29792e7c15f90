//! Text with its pairs as HTML.

use crate::braced::Braced;
use std::ops::Range;
use tezhukor::text::Pair;

/// How a pair is shown.
#[derive(Copy, Clone, PartialEq, Eq, Debug)]
pub enum Mark {
    Added,
    Comes,
    Goes,
    /// On operators that are not chosen yet.
    Depends,
}

impl Mark {
    fn class(self) -> &'static str {
        match self {
            Mark::Added => "pair",
            Mark::Comes => "pair comes",
            Mark::Goes => "pair goes",
            Mark::Depends => "pair depends",
        }
    }
}

/// A text in which nothing is markup.
pub fn escaped(text: &str) -> String {
    let mut escaped = String::with_capacity(text.len());
    for c in text.chars() {
        match c {
            '&' => escaped.push_str("&amp;"),
            '<' => escaped.push_str("&lt;"),
            '>' => escaped.push_str("&gt;"),
            '"' => escaped.push_str("&quot;"),
            '\'' => escaped.push_str("&#39;"),
            _ => escaped.push(c),
        }
    }
    escaped
}

/// A text with its pairs marked, by their places among the pairs; those that can be chosen are
/// buttons.
pub fn expression(shown: &Braced, mark: impl Fn(&Pair) -> Mark, is_chosen: bool) -> String {
    let mut pieces: Vec<(Range<usize>, String)> = Vec::new();
    for operator in &shown.operators {
        let braces = format!("<span class=\"open\">{}</span>", escaped(&operator.braces));
        pieces.push((operator.at.clone(), braces));
    }
    for (at, pair) in shown.text.pairs().iter().enumerate() {
        let class = mark(pair).class();
        let [open, close] = match is_chosen {
            true => [
                format!(
                    "<button type=\"button\" class=\"{class}\" data-pair=\"{at}\" \
                     data-node=\"{}\" aria-pressed=\"false\" aria-controls=\"reason-{at}\" \
                     aria-label=\"( round {}\">(</button>",
                    pair.node,
                    escaped(&shown.of(pair.node)),
                ),
                format!("<span class=\"{class}\" data-pair=\"{at}\">)</span>"),
            ],
            false => ['(', ')'].map(|sign| format!("<span class=\"{class}\">{sign}</span>")),
        };
        pieces.extend([(pair.open..pair.open + 1, open), (pair.close..pair.close + 1, close)]);
    }
    pieces.sort_by_key(|(place, _)| place.start);
    let (text, mut html, mut done) = (shown.text.as_str(), String::new(), 0);
    let ends = pieces.iter().skip(1).map(|(place, _)| place.start).chain([text.len()]);
    for ((place, piece), end) in pieces.iter().zip(ends) {
        html += &escaped(&text[done..place.start]);
        let word = match piece.starts_with("<button") {
            true => first_word(&text[place.end..end]),
            false => "",
        };
        html += &match word {
            "" => piece.clone(),
            _ => format!("<span class=\"whole\">{piece}{}</span>", escaped(word)),
        };
        done = place.end + word.len();
    }
    html + &escaped(&text[done..])
}

/// So many characters stand in one line with what opens before them.
const WHOLE: usize = 16;

/// What stands before the first blank, if it is no longer than that.
fn first_word(text: &str) -> &str {
    let word = text.split(' ').next().unwrap_or("");
    if word.chars().count() <= WHOLE {
        word
    } else {
        ""
    }
}

#[cfg(test)]
mod tests {
    use super::*;
    use tezhukor::build::{binary, path, Context, Op};
    use tezhukor::text::{Names, Text};

    #[test]
    fn pairs_are_buttons_and_names_no_markup() {
        let inner = binary(Op::Lt, path(2), path(3));
        let tree = binary(Op::Eq, path(1), inner).tree(Context::None).expect("a tree");
        let names = Names::new("<b>\nb\n\"c\"");
        let text = Braced::from(Text::new(&tree, &tree.rows(), &names));
        let html = expression(&text, |_| Mark::Added, true);
        let start = "&lt;b&gt; == <span class=\"whole\"><button type=\"button\" class=\"pair\"";
        assert!(html.starts_with(start), "{html}");
        assert!(html.contains("data-pair=\"0\" data-node=\"3\""), "{html}");
        assert!(
            html.contains("aria-label=\"( round b &lt; &quot;c&quot;\">(</button>b</span> &lt; ")
        );
        assert!(html.ends_with("&quot;c&quot;<span class=\"pair\" data-pair=\"0\">)</span>"));
        let fixed = expression(&text, |_| Mark::Goes, false);
        assert!(fixed.contains("<span class=\"pair goes\">(</span>"), "{fixed}");
        assert!(!fixed.contains("<button") && !fixed.contains("data-pair"));
    }
}
