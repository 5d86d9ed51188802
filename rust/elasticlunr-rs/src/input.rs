//! The bytes in which documents are passed to the library.
//!
//! A number takes four bytes, the lowest first. A text is the number of its bytes, and these; a
//! list is the number of its items, and these. The input is the language, the reference field,
//! whether values are stored (0 or 1), the fields, and the documents. A language is 0 and the name
//! of a built-in one, or 1, a name and the names of stages. A document is its reference and its
//! values; a value is its text and its tokens.

use crate::lang::Language;
use crate::pipeline::Pipeline;

/// What a value becomes.
pub(crate) enum Tokens {
    /// What the library makes of the text.
    OfText,
    /// These, after the stages of the language, in the library.
    ThroughPipeline(Vec<String>),
    /// These.
    AsTheyAre(Vec<String>),
}

/// An input that is whole after each document.
pub(crate) struct Input {
    bytes: Vec<u8>,
    documents: usize,
    documents_at: usize,
}

impl Input {
    /// An input without documents. There is a pipeline where the language is a custom one.
    pub fn new(
        lang: &dyn Language,
        pipeline: Option<&Pipeline>,
        ref_field: &str,
        save: bool,
        fields: &[String],
    ) -> Self {
        let mut bytes = Vec::new();
        match pipeline {
            None => {
                put_number(&mut bytes, 0);
                put_text(&mut bytes, &lang.name());
            }
            Some(pipeline) => {
                let names: Vec<String> = pipeline.queue.iter().map(|stage| stage.name()).collect();
                put_number(&mut bytes, 1);
                put_text(&mut bytes, &lang.name());
                put_texts(&mut bytes, &names);
            }
        }
        put_text(&mut bytes, ref_field);
        put_number(&mut bytes, save.into());
        put_texts(&mut bytes, fields);
        let documents_at = bytes.len();
        put_number(&mut bytes, 0);
        Input {
            bytes,
            documents: 0,
            documents_at,
        }
    }

    /// Adds a document, or panics and adds none.
    pub fn add<S: AsRef<str>>(&mut self, doc_ref: &str, values: &[(S, Tokens)]) {
        let mut document = Vec::new();
        put_text(&mut document, doc_ref);
        put_number(&mut document, values.len());
        for (text, tokens) in values {
            put_text(&mut document, text.as_ref());
            put_tokens(&mut document, tokens);
        }
        let documents = number(self.documents + 1);
        self.bytes.extend_from_slice(&document);
        self.bytes[self.documents_at..][..documents.len()].copy_from_slice(&documents);
        self.documents += 1;
    }

    pub fn bytes(&self) -> &[u8] {
        &self.bytes
    }
}

fn number(number: usize) -> [u8; 4] {
    let small =
        u32::try_from(number).expect("a text has less than 4 GiB, and a list less than 2^32 items");
    small.to_le_bytes()
}

fn put_number(bytes: &mut Vec<u8>, n: usize) {
    bytes.extend_from_slice(&number(n));
}

fn put_text(bytes: &mut Vec<u8>, text: &str) {
    put_number(bytes, text.len());
    bytes.extend_from_slice(text.as_bytes());
}

fn put_texts(bytes: &mut Vec<u8>, texts: &[String]) {
    put_number(bytes, texts.len());
    for text in texts {
        put_text(bytes, text);
    }
}

fn put_tokens(bytes: &mut Vec<u8>, tokens: &Tokens) {
    match tokens {
        Tokens::OfText => put_number(bytes, 0),
        Tokens::ThroughPipeline(tokens) => {
            put_number(bytes, 1);
            put_texts(bytes, tokens);
        }
        Tokens::AsTheyAre(tokens) => {
            put_number(bytes, 2);
            put_texts(bytes, tokens);
        }
    }
}
