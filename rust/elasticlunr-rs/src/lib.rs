//! The search index that elasticlunr.js loads in a browser: the public interface of elasticlunr-rs
//! 3.0.2, over a library that is proved to print the right index.
//!
//! ```
//! use elasticlunr::Index;
//!
//! let mut index = Index::new(&["title", "text"]);
//! index.add_doc("guide/install.html", &["Installing", "Copy the folder into your site."]);
//! index.add_doc("guide/search.html", &["Searching", "Readers find pages by their words."]);
//! std::fs::write("search_index.json", index.to_json()).unwrap();
//! # std::fs::remove_file("search_index.json").unwrap();
//! ```
//!
//! Tokenizers, languages and pipelines of your own run here, and the library gets the tokens.
//! All else is the library's: the tokens of the built-in languages, their counts, and the text.
//!
//! With the feature `as-original` the text is, byte for byte, the one that elasticlunr-rs prints.
//! With the feature `rust-stemmers` the languages that have a Snowball stemmer in elasticlunr-rs have
//! it here; their tokens are then made here, too.

#[cfg(feature = "bin")]
compile_error!("there is no program here: the same repository has the command `elasticlunr`");
#[cfg(feature = "ja")]
compile_error!("Japanese is missing: it needs a segmenter, which the proved library doesn't have");
#[cfg(feature = "zh")]
compile_error!("Chinese is missing: it needs a segmenter, which the proved library doesn't have");

mod as_original;
mod builder;
pub mod config;
pub mod document_store;
mod index;
mod index_text;
mod input;
pub mod inverted_index;
mod json;
pub mod lang;
mod library;
pub mod pipeline;
mod trie_text;

pub use builder::IndexBuilder;
pub use index::Index;
pub use lang::Language;
pub use pipeline::Pipeline;

/// The version of elasticlunr.js that loads these indexes.
pub const ELASTICLUNR_VERSION: &str = "0.9.5";

/// How deep [`serde`] goes: a deeper value is an error, to serialize and to deserialize. Each
/// character of a token is one level, and serde makes a call of the machine's stack for each.
/// [`Index::to_json`], [`Index::to_json_pretty`] and the calls of an
/// [`InvertedIndex`](inverted_index::InvertedIndex) are loops, and have no limit.
pub const DEEPEST: usize = 1000;

/// Whether the index is the original's.
const AS_ORIGINAL: bool = cfg!(feature = "as-original");

/// Runs the example of the README as a test.
#[cfg(doctest)]
#[doc = include_str!("../README.md")]
struct Readme;
