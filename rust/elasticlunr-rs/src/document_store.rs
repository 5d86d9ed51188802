//! The store of an index: the texts of each document, and how many tokens each of its fields has.
//! An [`Index`](crate::Index) needs no call of it.

use serde::{Deserialize, Serialize};
use std::collections::BTreeMap;

/// The texts and the lengths of documents, by reference and field.
#[derive(Clone, Debug, Serialize, Deserialize)]
#[serde(rename_all = "camelCase")]
pub struct DocumentStore {
    /// Whether texts are stored. Where they are not, a document is an empty map.
    pub save: bool,
    /// The texts.
    pub docs: BTreeMap<String, BTreeMap<String, String>>,
    /// The lengths. They stay when their document is removed.
    pub doc_info: BTreeMap<String, BTreeMap<String, usize>>,
    /// The number of documents, as it is printed.
    pub length: usize,
}

impl DocumentStore {
    /// A store without documents.
    pub fn new(save: bool) -> Self {
        DocumentStore {
            save,
            docs: BTreeMap::new(),
            doc_info: BTreeMap::new(),
            length: 0,
        }
    }

    /// The number of documents that are there.
    pub fn len(&self) -> usize {
        self.docs.len()
    }

    /// Whether no document is there.
    pub fn is_empty(&self) -> bool {
        self.docs.is_empty()
    }

    /// Whether texts are stored.
    pub fn is_stored(&self) -> bool {
        self.save
    }

    /// Whether a document has this reference.
    pub fn has_doc(&self, doc_ref: &str) -> bool {
        self.docs.contains_key(doc_ref)
    }

    /// Stores a document, and replaces an earlier one of this reference.
    pub fn add_doc(&mut self, doc_ref: &str, doc: BTreeMap<String, String>) {
        let kept = if self.save { doc } else { BTreeMap::new() };
        let earlier = self.docs.insert(doc_ref.to_owned(), kept);
        self.length += usize::from(earlier.is_none());
    }

    /// A copy of the texts of a document.
    pub fn get_doc(&self, doc_ref: &str) -> Option<BTreeMap<String, String>> {
        self.docs.get(doc_ref).cloned()
    }

    /// Removes a document. Its lengths stay.
    pub fn remove_doc(&mut self, doc_ref: &str) {
        let earlier = self.docs.remove(doc_ref);
        self.length -= usize::from(earlier.is_some());
    }

    /// Sets the number of tokens of a field.
    pub fn add_field_length(&mut self, doc_ref: &str, field: &str, length: usize) {
        let lengths = self.doc_info.entry(doc_ref.to_owned()).or_default();
        lengths.insert(field.to_owned(), length);
    }

    /// The number of tokens of a field: 0 where it has none, and where no document has this
    /// reference.
    pub fn get_field_length(&self, doc_ref: &str, field: &str) -> usize {
        let lengths = self.doc_info.get(doc_ref).filter(|_| self.has_doc(doc_ref));
        lengths
            .and_then(|lengths| lengths.get(field))
            .copied()
            .unwrap_or(0)
    }
}
