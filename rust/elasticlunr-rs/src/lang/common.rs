//! Stages for custom languages.

use super::snowball::Stemmer;
use crate::pipeline::{FnWrapper, PipelineFn};
use regex::Regex;
use std::collections::HashSet;

/// The stages of a language, in order.
pub(super) type Stages = Vec<Box<dyn PipelineFn>>;

/// A stage that drops stop words.
#[derive(Clone)]
pub struct StopWordFilter {
    name: String,
    stop_words: HashSet<String>,
}

impl StopWordFilter {
    /// A stage of this name that drops these words.
    pub fn new(name: &str, stop_words: &[&str]) -> Self {
        let stop_words = stop_words.iter().map(|word| (*word).to_owned()).collect();
        StopWordFilter {
            name: name.to_owned(),
            stop_words,
        }
    }

    /// A stage that drops the words of a JSON list.
    pub(super) fn listed(name: &str, words: &str) -> Self {
        let words: Vec<&str> = serde_json::from_str(words).expect("a list without escapes");
        StopWordFilter::new(name, &words)
    }
}

impl PipelineFn for StopWordFilter {
    fn name(&self) -> String {
        self.name.clone()
    }

    fn filter(&self, token: String) -> Option<String> {
        Some(token).filter(|token| !self.stop_words.contains(token))
    }
}

/// A stage that cuts characters outside a class off both ends of a token.
#[derive(Clone)]
pub struct RegexTrimmer {
    name: String,
    foreign: Regex,
}

impl RegexTrimmer {
    /// A stage of this name. The class is what stands between the brackets of a class of the crate
    /// `regex`, such as `\p{Latin}0-9`.
    ///
    /// # Panics
    ///
    /// Where `regex` knows no such class.
    pub fn new(name: &str, word_chars: &str) -> Self {
        let foreign = Regex::new(&format!("[^{word_chars}]"));
        let foreign = foreign
            .unwrap_or_else(|error| panic!("{word_chars:?} is not a class of characters: {error}"));
        RegexTrimmer {
            name: name.to_owned(),
            foreign,
        }
    }
}

impl PipelineFn for RegexTrimmer {
    fn name(&self) -> String {
        self.name.clone()
    }

    fn filter(&self, token: String) -> Option<String> {
        let is_foreign =
            |character: char| self.foreign.is_match(character.encode_utf8(&mut [0; 4]));
        match token.trim_matches(is_foreign) {
            "" => None,
            left if left.len() == token.len() => Some(token),
            left => Some(left.to_owned()),
        }
    }
}

/// A trimmer of a class and a filter, with a language's code in their names.
#[allow(dead_code)] // without the features of these languages
pub(super) fn of_class(code: &str, class: &str, stop_words: &str) -> Stages {
    vec![
        Box::new(RegexTrimmer::new(&format!("trimmer-{code}"), class)),
        Box::new(StopWordFilter::listed(
            &format!("stopWordFilter-{code}"),
            stop_words,
        )),
    ]
}

/// The stages, and one that keeps every token.
#[allow(dead_code)] // without the feature of Korean
pub(super) fn and_keeper(mut stages: Stages, name: &str) -> Stages {
    stages.push(Box::new(FnWrapper(name.to_owned(), Some)));
    stages
}

/// The stages of a language with a Snowball stemmer: with the feature, that comes last.
#[allow(dead_code)] // without the features of these languages
pub(super) fn and_stemmer(mut stages: Stages, code: &str, table: &str) -> Stages {
    if is_stemmed(code) {
        stages.push(Box::new(Stemmer::new(&format!("stemmer-{code}"), table)));
    }
    stages
}

/// Whether a language has a Snowball stemmer.
pub(super) fn is_stemmed(code: &str) -> bool {
    cfg!(feature = "rust-stemmers") && !["en", "ar", "ko"].contains(&code)
}
