//! Compact JSON text: read part by part, indented, and passed to a serializer.
//!
//! The texts are the library's and this crate's own, so they are taken to be well formed.

use crate::DEEPEST;
use serde::ser::{Error, Serialize, SerializeMap, SerializeSeq, Serializer};
use std::borrow::Cow;
use std::cell::RefCell;

/// What is still to be read of a compact text.
pub(crate) struct Reader<'t> {
    rest: &'t str,
}

impl<'t> Reader<'t> {
    pub fn new(text: &'t str) -> Self {
        Reader { rest: text }
    }

    /// The next byte, and a zero byte at the end.
    pub fn peek(&self) -> u8 {
        self.rest.bytes().next().unwrap_or(0)
    }

    /// Skips a byte of ASCII, if it comes next, and says whether it does.
    pub fn passes(&mut self, byte: u8) -> bool {
        let comes = self.peek() == byte;
        self.rest = &self.rest[usize::from(comes)..];
        comes
    }

    /// Skips the beginning of an object or a list, and says whether something is in it. An empty
    /// one is skipped to its end.
    pub fn opens(&mut self, end: u8) -> bool {
        self.rest = &self.rest[1..];
        !self.passes(end)
    }

    /// Skips the comma after an item or a member, or the end, and says whether another one comes.
    pub fn goes_on(&mut self) -> bool {
        let goes_on = self.peek() == b',';
        self.rest = &self.rest[1..];
        goes_on
    }

    /// The string that comes next.
    pub fn string(&mut self) -> Cow<'t, str> {
        let length = string_length(self.rest.as_bytes());
        let (string, rest) = self.rest.split_at(length);
        self.rest = rest;
        if string.contains('\\') {
            serde_json::from_str::<String>(string)
                .expect("a string of JSON")
                .into()
        } else {
            string[1..length - 1].into()
        }
    }

    /// The key that comes next, with its colon.
    pub fn key(&mut self) -> Cow<'t, str> {
        let key = self.string();
        self.rest = &self.rest[1..];
        key
    }

    /// The number, or the name such as `true`, that comes next.
    pub fn word(&mut self) -> &'t str {
        let length = self.rest.find([',', '}', ']']).unwrap_or(self.rest.len());
        let (word, rest) = self.rest.split_at(length);
        self.rest = rest;
        word
    }

    /// Skips a value, however deep it is.
    pub fn skip(&mut self) {
        let mut depth = 0;
        loop {
            match self.peek() {
                b'"' => {
                    self.string();
                }
                b'{' | b'[' => depth += self.step(),
                b'}' | b']' => depth -= self.step(),
                b',' | b':' => {
                    self.step();
                }
                _ => {
                    self.word();
                }
            }
            if depth == 0 {
                return;
            }
        }
    }

    /// Skips one byte, and returns how many it skipped.
    fn step(&mut self) -> usize {
        self.rest = &self.rest[1..];
        1
    }
}

/// The bytes of the string that begins here, with both quotation marks.
fn string_length(bytes: &[u8]) -> usize {
    let mut at = 1;
    while bytes[at] != b'"' {
        at += if bytes[at] == b'\\' { 2 } else { 1 };
    }
    at + 1
}

/// The same value with a line for each member and item, as `serde_json` indents it.
pub(crate) fn indented(text: &str) -> String {
    let bytes = text.as_bytes();
    let mut out = String::with_capacity(2 * text.len());
    let (mut at, mut depth) = (0, 0);
    while at < bytes.len() {
        let next = bytes.get(at + 1).copied().unwrap_or(0);
        match bytes[at] {
            b'"' => {
                let length = string_length(&bytes[at..]);
                out.push_str(&text[at..at + length]);
                at += length;
                continue;
            }
            open @ (b'{' | b'[') if next == b'}' || next == b']' => {
                out.push(open.into());
                out.push(next.into());
                at += 1;
            }
            open @ (b'{' | b'[') => {
                out.push(open.into());
                depth += 1;
                new_line(&mut out, depth);
            }
            close @ (b'}' | b']') => {
                depth -= 1;
                new_line(&mut out, depth);
                out.push(close.into());
            }
            b',' => {
                out.push(',');
                new_line(&mut out, depth);
            }
            b':' => out.push_str(": "),
            other => out.push(other.into()),
        }
        at += 1;
    }
    out
}

fn new_line(out: &mut String, depth: usize) {
    out.push('\n');
    for _ in 0..depth {
        out.push_str("  ");
    }
}

/// How deep the objects and lists of a text stand in each other.
fn depth(text: &str) -> usize {
    let bytes = text.as_bytes();
    let (mut at, mut depth, mut deepest) = (0, 0, 0);
    while at < bytes.len() {
        match bytes[at] {
            b'"' => at += string_length(&bytes[at..]) - 1,
            b'{' | b'[' => depth += 1,
            b'}' | b']' => depth -= 1,
            _ => {}
        }
        deepest = depth.max(deepest);
        at += 1;
    }
    deepest
}

/// A compact text, as a value for a serializer. It is serialized once.
///
/// A serializer is called once for each level, within the call for the level above. So a text that
/// goes deeper than [`DEEPEST`] is an error, before any call, and not the end of the stack.
pub(crate) struct Json<'t> {
    text: &'t str,
}

impl<'t> Json<'t> {
    pub fn new(text: &'t str) -> Self {
        Json { text }
    }
}

impl Serialize for Json<'_> {
    fn serialize<S: Serializer>(&self, serializer: S) -> Result<S::Ok, S::Error> {
        if depth(self.text) > DEEPEST {
            return Err(S::Error::custom(format!(
                "a token is too long: serde goes {DEEPEST} levels deep"
            )));
        }
        Part {
            reader: &RefCell::new(Reader::new(self.text)),
        }
        .serialize(serializer)
    }
}

/// The value that comes next in a text.
struct Part<'p, 't> {
    reader: &'p RefCell<Reader<'t>>,
}

impl Part<'_, '_> {
    fn object<S: Serializer>(&self, serializer: S) -> Result<S::Ok, S::Error> {
        let mut map = serializer.serialize_map(None)?;
        let mut goes_on = self.reader.borrow_mut().opens(b'}');
        while goes_on {
            let key = self.reader.borrow_mut().key();
            map.serialize_entry(&key, self)?;
            goes_on = self.reader.borrow_mut().goes_on();
        }
        map.end()
    }

    fn list<S: Serializer>(&self, serializer: S) -> Result<S::Ok, S::Error> {
        let mut list = serializer.serialize_seq(None)?;
        let mut goes_on = self.reader.borrow_mut().opens(b']');
        while goes_on {
            list.serialize_element(self)?;
            goes_on = self.reader.borrow_mut().goes_on();
        }
        list.end()
    }
}

impl Serialize for Part<'_, '_> {
    fn serialize<S: Serializer>(&self, serializer: S) -> Result<S::Ok, S::Error> {
        let next = self.reader.borrow().peek();
        match next {
            b'{' => self.object(serializer),
            b'[' => self.list(serializer),
            b'"' => {
                let string = self.reader.borrow_mut().string();
                serializer.serialize_str(&string)
            }
            _ => {
                let word = self.reader.borrow_mut().word();
                word_value(word, serializer)
            }
        }
    }
}

fn word_value<S: Serializer>(word: &str, serializer: S) -> Result<S::Ok, S::Error> {
    match word {
        "true" => return serializer.serialize_bool(true),
        "false" => return serializer.serialize_bool(false),
        "null" => return serializer.serialize_unit(),
        _ => {}
    }
    if let Ok(number) = word.parse() {
        return serializer.serialize_u64(number);
    }
    if let Ok(number) = word.parse() {
        return serializer.serialize_i64(number);
    }
    serializer.serialize_f64(word.parse().map_err(S::Error::custom)?)
}
