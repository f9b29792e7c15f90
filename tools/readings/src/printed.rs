//! What rustc prints with `-Zunpretty=ast-tree`.

use std::io::Write;
use std::process::{Command, Stdio};

/// What rustc prints for a source text of an edition, or what it says is wrong with it.
///
/// # Panics
///
/// If rustc cannot be started.
pub fn of_source(source: &str, edition: &str) -> Result<String, String> {
    let mut rustc = Command::new("rustc")
        .env("RUSTC_BOOTSTRAP", "1")
        .args(["--edition", edition, "-Zunpretty=ast-tree", "-"])
        .stdin(Stdio::piped())
        .stdout(Stdio::piped())
        .stderr(Stdio::piped())
        .spawn()
        .expect("rustc runs");
    let mut input = rustc.stdin.take().expect("its input");
    let output = std::thread::scope(|scope| {
        scope.spawn(move || input.write_all(source.as_bytes()));
        rustc.wait_with_output().expect("rustc ends")
    });
    let text = |bytes: Vec<u8>| String::from_utf8_lossy(&bytes).into_owned();
    match output.status.success() {
        true => Ok(text(output.stdout)),
        false => Err(text(output.stderr)),
    }
}

/// What is read of each of some texts, where one wrong text spoils what is read of all: those
/// that are wrong are found by halving.
pub fn halved<Text, Read>(
    texts: &[Text],
    read: &mut impl FnMut(&[Text]) -> Option<Vec<Read>>,
) -> Vec<Option<Read>> {
    if texts.is_empty() {
        return Vec::new();
    }
    match read(texts) {
        Some(found) => {
            assert_eq!(found.len(), texts.len(), "an answer for each text");
            found.into_iter().map(Some).collect()
        }
        None if texts.len() == 1 => vec![None],
        None => {
            let (one, other) = texts.split_at(texts.len() / 2);
            let mut found = halved(one, read);
            found.extend(halved(other, read));
            found
        }
    }
}

/// A value as it is printed: what stands before its bracket, and what is inside.
#[derive(Debug, Default)]
pub struct Value<'a> {
    pub field: &'a str,
    pub head: &'a str,
    pub inside: Vec<Value<'a>>,
}

impl<'a> Value<'a> {
    /// The value of a line, without what opens or ends it.
    fn of(line: &'a str) -> Self {
        let line = line.trim_end_matches(['{', '(', '[', ',']).trim_end();
        let (field, head) = line.split_once(": ").unwrap_or(("", line));
        // `name: [` leaves nothing behind the colon.
        let (field, head) = match head.strip_suffix(':') {
            Some(name) if field.is_empty() => (name, ""),
            _ => (field, head),
        };
        Value { field, head, inside: Vec::new() }
    }

    /// The value of a field, if there is one.
    pub fn get(&self, name: &str) -> Option<&Value<'a>> {
        self.inside.iter().find(|value| value.field == name)
    }

    /// # Panics
    ///
    /// If there is no such field.
    pub fn field(&self, name: &str) -> &Value<'a> {
        self.get(name).unwrap_or_else(|| panic!("no {name} in {} {}", self.field, self.head))
    }

    /// What is inside `Some`.
    pub fn some(&self) -> Option<&Value<'a>> {
        self.inside.first().filter(|_| self.head == "Some")
    }

    /// All values with a head, from the outside, none inside another.
    pub fn find<'b>(&'b self, head: &str, found: &mut Vec<&'b Value<'a>>) {
        if self.head == head {
            found.push(self);
            return;
        }
        self.inside.iter().for_each(|value| value.find(head, found));
    }
}

/// The value that lines print, without numbers of nodes, and without tokens, which are macros'
/// own.
pub fn parsed(text: &str) -> Value<'_> {
    let mut open = vec![Value::default()];
    for line in text.lines().map(str::trim_start) {
        let closed = match line.trim_end_matches(',') {
            "}" | ")" | "]" => open.pop().expect("an open value"),
            opening if opening.ends_with(['{', '(', '[']) => {
                open.push(Value::of(line));
                continue;
            }
            _ => Value::of(line),
        };
        if !matches!(closed.field, "id" | "tokens") {
            open.last_mut().expect("the outermost value").inside.push(closed);
        }
    }
    assert_eq!(open.len(), 1, "all is closed");
    open.pop().expect("the outermost value")
}
