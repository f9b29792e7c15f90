//! Where in a source text rustc says that something stands.

use readings::printed::Value;
use std::ops::Range;

/// A source text, with where its lines begin.
pub struct Source<'a> {
    pub text: &'a str,
    lines: Vec<usize>,
}

impl<'a> Source<'a> {
    pub fn new(text: &'a str) -> Self {
        let ends = text.bytes().enumerate().filter(|(_, byte)| *byte == b'\n');
        let lines = [0].into_iter().chain(ends.map(|(at, _)| at + 1)).collect();
        Source { text, lines }
    }

    /// The bytes of a value that has a span.
    pub fn span(&self, value: &Value) -> Range<usize> {
        self.bytes(value.field("span").head)
    }

    /// The text of a value that has a span.
    pub fn of(&self, value: &Value) -> &'a str {
        &self.text[self.span(value)]
    }

    /// The line of a byte, from 1 on.
    pub fn line(&self, at: usize) -> usize {
        self.lines.partition_point(|&start| start <= at)
    }

    /// The bytes of a span: `FILE:LINE:COLUMN: LINE:COLUMN (#0)`, lines and columns from 1 on,
    /// columns in characters.
    fn bytes(&self, span: &str) -> Range<usize> {
        let places = span.strip_suffix(" (#0)").and_then(|places| places.rsplit_once(": "));
        let (start, end) = places.unwrap_or_else(|| panic!("a span: {span}"));
        let mut start = start.rsplitn(3, ':');
        let (column, line) = (start.next(), start.next());
        let start = self.byte(line, column);
        let (line, column) = end.split_once(':').expect("a line and a column");
        start..self.byte(Some(line), Some(column))
    }

    fn byte(&self, line: Option<&str>, column: Option<&str>) -> usize {
        let number = |text: Option<&str>| text.and_then(|text| text.parse::<usize>().ok());
        let line = number(line).expect("the number of a line");
        let column = number(column).expect("the number of a column");
        let start = self.lines[line - 1];
        let before = self.text[start..].chars().take(column - 1);
        start + before.map(char::len_utf8).sum::<usize>()
    }
}
