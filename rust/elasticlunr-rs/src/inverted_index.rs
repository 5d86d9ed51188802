//! The trie of a field: the tokens with the references that have them. An [`Index`](crate::Index)
//! needs no call of it.
//!
//! Its nodes stand in one list, and loops walk them. So a token may be as long as memory allows,
//! when it is added, looked up, compared and dropped. [`Serialize`] and [`Deserialize`] go as deep
//! as [`DEEPEST`] says.

use crate::json::Json;
use crate::{trie_text, DEEPEST};
use serde::de::{self, Deserialize, DeserializeSeed, Deserializer, MapAccess, Visitor};
use serde::ser::{Serialize, Serializer};
use std::collections::BTreeMap;
use std::fmt;

/// A node: what the token at it has, and the places of its children.
#[derive(Debug, Default)]
pub(crate) struct Node {
    pub docs: BTreeMap<String, f64>,
    pub doc_freq: i64,
    pub children: BTreeMap<char, usize>,
}

/// The tokens of a field, with a frequency for each reference that has them.
#[derive(Debug)]
pub struct InvertedIndex {
    nodes: Vec<Node>,
}

impl Default for InvertedIndex {
    fn default() -> Self {
        InvertedIndex {
            nodes: vec![Node::default()],
        }
    }
}

impl InvertedIndex {
    /// A trie without tokens.
    pub fn new() -> Self {
        Self::default()
    }

    /// Gives a reference this frequency at a token. The empty token gets none.
    pub fn add_token(&mut self, doc_ref: &str, token: &str, term_freq: f64) {
        if token.is_empty() {
            return;
        }
        let mut at = 0;
        for character in token.chars() {
            at = self.child(at, character);
        }
        let node = &mut self.nodes[at];
        let earlier = node.docs.insert(doc_ref.to_owned(), term_freq);
        node.doc_freq += i64::from(earlier.is_none());
    }

    /// Whether this token, or one that begins with it, was ever added.
    pub fn has_token(&self, token: &str) -> bool {
        self.find(token).is_some()
    }

    /// Removes the frequency of a reference at a token. The nodes stay.
    pub fn remove_token(&mut self, doc_ref: &str, token: &str) {
        if let Some(at) = self.find(token).filter(|at| *at != 0) {
            let node = &mut self.nodes[at];
            node.doc_freq -= i64::from(node.docs.remove(doc_ref).is_some());
        }
    }

    /// The references that have a token, with their frequencies. `None` where no node is there.
    pub fn get_docs(&self, token: &str) -> Option<BTreeMap<String, f64>> {
        self.find(token).map(|at| self.nodes[at].docs.clone())
    }

    /// The frequency of a token in a document, or 0.
    pub fn get_term_frequency(&self, doc_ref: &str, token: &str) -> f64 {
        let docs = self.find(token).map(|at| &self.nodes[at].docs);
        docs.and_then(|docs| docs.get(doc_ref))
            .copied()
            .unwrap_or(0.0)
    }

    /// How many references have a token.
    pub fn get_doc_frequency(&self, token: &str) -> i64 {
        self.find(token).map_or(0, |at| self.nodes[at].doc_freq)
    }

    pub(crate) fn node(&self, at: usize) -> &Node {
        &self.nodes[at]
    }

    fn find(&self, token: &str) -> Option<usize> {
        token.chars().try_fold(0, |at, character| {
            self.nodes[at].children.get(&character).copied()
        })
    }

    /// The child of a node, which is made if it isn't there.
    fn child(&mut self, at: usize, character: char) -> usize {
        let next = self.nodes.len();
        let child = *self.nodes[at].children.entry(character).or_insert(next);
        if child == next {
            self.nodes.push(Node::default());
        }
        child
    }

    /// A new child of a node, which replaces an earlier one.
    fn new_child(&mut self, at: usize, character: char) -> usize {
        self.nodes[at].children.remove(&character);
        self.child(at, character)
    }
}

impl PartialEq for InvertedIndex {
    fn eq(&self, other: &Self) -> bool {
        let mut pairs = vec![(0, 0)];
        while let Some((mine, theirs)) = pairs.pop() {
            let (mine, theirs) = (&self.nodes[mine], &other.nodes[theirs]);
            if mine.docs != theirs.docs
                || mine.doc_freq != theirs.doc_freq
                || !mine.children.keys().eq(theirs.children.keys())
            {
                return false;
            }
            pairs.extend(
                mine.children
                    .values()
                    .copied()
                    .zip(theirs.children.values().copied()),
            );
        }
        true
    }
}

impl Serialize for InvertedIndex {
    fn serialize<S: Serializer>(&self, serializer: S) -> Result<S::Ok, S::Error> {
        let mut text = Vec::new();
        trie_text::put_nodes(&mut text, self, trie_text::Numbers::Floats);
        Json::new(trie_text::as_str(&text)).serialize(serializer)
    }
}

impl<'de> Deserialize<'de> for InvertedIndex {
    fn deserialize<D: Deserializer<'de>>(deserializer: D) -> Result<Self, D::Error> {
        #[derive(serde::Deserialize)]
        struct Printed {
            root: Root,
        }
        Printed::deserialize(deserializer).map(|printed| printed.root.0)
    }
}

/// A trie that was read from its root.
struct Root(InvertedIndex);

impl<'de> Deserialize<'de> for Root {
    fn deserialize<D: Deserializer<'de>>(deserializer: D) -> Result<Self, D::Error> {
        let mut trie = InvertedIndex::new();
        NodeReader {
            trie: &mut trie,
            at: 0,
            depth: 0,
        }
        .deserialize(deserializer)?;
        Ok(Root(trie))
    }
}

#[derive(serde::Deserialize)]
struct Posting {
    tf: f64,
}

/// Reads a node, and all below it, to its place in a trie.
struct NodeReader<'t> {
    trie: &'t mut InvertedIndex,
    at: usize,
    depth: usize,
}

impl<'de> DeserializeSeed<'de> for NodeReader<'_> {
    type Value = ();

    fn deserialize<D: Deserializer<'de>>(self, deserializer: D) -> Result<(), D::Error> {
        if self.depth > DEEPEST {
            return Err(de::Error::custom(format!(
                "a token is too long: serde goes {DEEPEST} levels deep"
            )));
        }
        deserializer.deserialize_map(self)
    }
}

impl<'de> Visitor<'de> for NodeReader<'_> {
    type Value = ();

    fn expecting(&self, formatter: &mut fmt::Formatter<'_>) -> fmt::Result {
        formatter.write_str("a node of a trie")
    }

    fn visit_map<M: MapAccess<'de>>(self, mut map: M) -> Result<(), M::Error> {
        let (mut docs, mut doc_freq) = (None, None);
        while let Some(key) = map.next_key::<String>()? {
            match key.as_str() {
                "docs" => set_once(
                    &mut docs,
                    "docs",
                    map.next_value::<BTreeMap<String, Posting>>()?,
                )?,
                "df" => set_once(&mut doc_freq, "df", map.next_value()?)?,
                key => {
                    let at = self.trie.new_child(self.at, only_character(key)?);
                    map.next_value_seed(NodeReader {
                        trie: &mut *self.trie,
                        at,
                        depth: self.depth + 1,
                    })?;
                }
            }
        }
        let docs = docs.ok_or_else(|| de::Error::missing_field("docs"))?;
        let node = &mut self.trie.nodes[self.at];
        node.docs = docs
            .into_iter()
            .map(|(doc_ref, posting)| (doc_ref, posting.tf))
            .collect();
        node.doc_freq = doc_freq.ok_or_else(|| de::Error::missing_field("df"))?;
        Ok(())
    }
}

fn set_once<T, E: de::Error>(place: &mut Option<T>, key: &'static str, value: T) -> Result<(), E> {
    match place.replace(value) {
        None => Ok(()),
        Some(_) => Err(E::duplicate_field(key)),
    }
}

fn only_character<E: de::Error>(key: &str) -> Result<char, E> {
    let mut characters = key.chars();
    match (characters.next(), characters.next()) {
        (Some(character), None) => Ok(character),
        _ => Err(E::invalid_value(
            de::Unexpected::Str(key),
            &"one character, \"docs\" or \"df\"",
        )),
    }
}
