//! The text of a trie in the original's order: of each node its postings, their number, and its
//! children. Loops write it, so a token may be as long as memory allows.

use crate::inverted_index::{InvertedIndex, Node};
use serde::Serialize;

/// How whole frequencies are written.
#[derive(Clone, Copy)]
pub(crate) enum Numbers {
    /// As numbers with a point.
    Floats,
    /// Without a point.
    Whole,
}

impl Numbers {
    /// Those of the indexes that this crate makes.
    pub fn of_indexes() -> Self {
        if crate::AS_ORIGINAL {
            Numbers::Floats
        } else {
            Numbers::Whole
        }
    }
}

/// What comes next in the walk of a trie.
enum Step {
    Enter(char, usize),
    Leave,
}

/// Writes a value that is not deep.
pub(crate) fn put<T: Serialize + ?Sized>(text: &mut Vec<u8>, value: &T) {
    serde_json::to_writer(text, value).expect("texts, numbers and maps of these are JSON");
}

/// A text as it is printed, in quotation marks.
pub(crate) fn quoted(text: &str) -> String {
    serde_json::to_string(text).expect("a text is JSON")
}

/// What was written.
pub(crate) fn as_str(text: &[u8]) -> &str {
    std::str::from_utf8(text).expect("what was written is UTF-8")
}

/// Writes a trie that is there.
pub(crate) fn put_nodes(text: &mut Vec<u8>, trie: &InvertedIndex, numbers: Numbers) {
    text.extend_from_slice(b"{\"root\":");
    let mut steps = vec![Step::Leave];
    put_node(text, trie.node(0), numbers, &mut steps);
    while let Some(step) = steps.pop() {
        match step {
            Step::Enter(character, at) => {
                put_edge(text, character);
                steps.push(Step::Leave);
                put_node(text, trie.node(at), numbers, &mut steps);
            }
            Step::Leave => text.push(b'}'),
        }
    }
    text.push(b'}');
}

fn put_node(text: &mut Vec<u8>, node: &Node, numbers: Numbers, steps: &mut Vec<Step>) {
    let docs = node
        .docs
        .iter()
        .map(|(doc_ref, frequency)| (quoted(doc_ref), *frequency));
    put_postings(text, docs, node.doc_freq, numbers);
    steps.extend(
        node.children
            .iter()
            .rev()
            .map(|(character, at)| Step::Enter(*character, *at)),
    );
}

/// Writes the edge to a child, up to its object.
fn put_edge(text: &mut Vec<u8>, character: char) {
    text.push(b',');
    put(text, character.encode_utf8(&mut [0; 4]));
    text.push(b':');
}

/// Writes the beginning of a node: its postings, whose references are quoted, and their number.
fn put_postings<S: AsRef<str>>(
    text: &mut Vec<u8>,
    docs: impl Iterator<Item = (S, f64)>,
    doc_freq: i64,
    numbers: Numbers,
) {
    text.extend_from_slice(b"{\"docs\":{");
    for (number, (doc_ref, frequency)) in docs.enumerate() {
        if number > 0 {
            text.push(b',');
        }
        text.extend_from_slice(doc_ref.as_ref().as_bytes());
        text.extend_from_slice(b":{\"tf\":");
        put_frequency(text, frequency, numbers);
        text.push(b'}');
    }
    text.extend_from_slice(b"},\"df\":");
    put(text, &doc_freq);
}

fn put_frequency(text: &mut Vec<u8>, frequency: f64, numbers: Numbers) {
    let is_whole = frequency.fract() == 0.0 && frequency.abs() < 2f64.powi(53);
    match numbers {
        Numbers::Whole if is_whole => put(text, &(frequency as i64)),
        _ => put(text, &frequency),
    }
}

fn no_docs() -> std::iter::Empty<(&'static str, f64)> {
    std::iter::empty()
}

/// A trie that is written token by token, in the order of the tokens.
pub(crate) struct Tokens<'t> {
    text: &'t mut Vec<u8>,
    path: Vec<char>,
}

impl<'t> Tokens<'t> {
    pub fn new(text: &'t mut Vec<u8>) -> Self {
        text.extend_from_slice(b"{\"root\":");
        put_postings(text, no_docs(), 0, Numbers::Floats);
        Tokens {
            text,
            path: Vec::new(),
        }
    }

    /// Writes a token that comes after the last one, with its postings in the order of their
    /// references, which are quoted.
    pub fn put<S: AsRef<str>>(
        &mut self,
        token: &str,
        postings: impl ExactSizeIterator<Item = (S, f64)>,
    ) {
        let shared = self
            .path
            .iter()
            .zip(token.chars())
            .take_while(|(mine, other)| **mine == *other)
            .count();
        self.leave_to(shared);
        let mut characters = token.chars().skip(shared).peekable();
        while let Some(character) = characters.next() {
            self.path.push(character);
            put_edge(self.text, character);
            if characters.peek().is_some() {
                put_postings(self.text, no_docs(), 0, Numbers::Floats);
            }
        }
        let doc_freq = postings.len() as i64;
        put_postings(self.text, postings, doc_freq, Numbers::Floats);
    }

    pub fn end(mut self) {
        self.leave_to(0);
        self.text.extend_from_slice(b"}}");
    }

    fn leave_to(&mut self, depth: usize) {
        while self.path.len() > depth {
            self.path.pop();
            self.text.push(b'}');
        }
    }
}
