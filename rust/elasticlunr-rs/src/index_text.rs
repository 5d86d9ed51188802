//! The text of an index in the original's order of keys.

use crate::document_store::DocumentStore;
use crate::inverted_index::InvertedIndex;
use crate::trie_text::{put, put_nodes, Numbers};
use std::collections::BTreeMap;

/// The parts of a printed index other than its tries and its lengths.
pub(crate) struct Printed<'i> {
    pub fields: &'i [String],
    pub stages: &'i [String],
    pub ref_field: &'i str,
    pub version: &'i str,
    pub store: &'i DocumentStore,
    pub lang: &'i str,
}

type Lengths = BTreeMap<String, BTreeMap<String, usize>>;

impl Printed<'_> {
    /// The text, with what `put_tries` writes as its tries.
    pub fn text(&self, put_tries: impl FnOnce(&mut Vec<u8>), lengths: &Lengths) -> String {
        let mut text = Vec::new();
        put_member(&mut text, b"{\"fields\":", self.fields);
        put_member(&mut text, b",\"pipeline\":", self.stages);
        put_member(&mut text, b",\"ref\":", self.ref_field);
        put_member(&mut text, b",\"version\":", self.version);
        text.extend_from_slice(b",\"index\":");
        put_tries(&mut text);
        put_member(
            &mut text,
            b",\"documentStore\":{\"save\":",
            &self.store.save,
        );
        put_member(&mut text, b",\"docs\":", &self.store.docs);
        put_member(&mut text, b",\"docInfo\":", lengths);
        put_member(&mut text, b",\"length\":", &self.store.length);
        put_member(&mut text, b"},\"lang\":", self.lang);
        text.push(b'}');
        String::from_utf8(text).expect("what was written is UTF-8")
    }
}

fn put_member<T: serde::Serialize + ?Sized>(text: &mut Vec<u8>, before: &[u8], value: &T) {
    text.extend_from_slice(before);
    put(text, value);
}

/// Writes an object with a member for each field; `put_trie` writes its value.
pub(crate) fn put_by_field<T>(
    text: &mut Vec<u8>,
    tries: &BTreeMap<String, T>,
    put_trie: impl Fn(&mut Vec<u8>, &T),
) {
    text.push(b'{');
    for (number, (field, trie)) in tries.iter().enumerate() {
        if number > 0 {
            text.push(b',');
        }
        put(text, field);
        text.push(b':');
        put_trie(text, trie);
    }
    text.push(b'}');
}

/// The text of an index whose tries are there.
pub(crate) fn text_of_tries(
    printed: &Printed<'_>,
    tries: &BTreeMap<String, InvertedIndex>,
) -> String {
    let put_trie =
        |text: &mut Vec<u8>, trie: &InvertedIndex| put_nodes(text, trie, Numbers::of_indexes());
    printed.text(
        |text| put_by_field(text, tries, put_trie),
        &printed.store.doc_info,
    )
}
