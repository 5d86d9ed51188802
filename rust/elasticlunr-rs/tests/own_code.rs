//! Custom tokenizers, languages and pipelines. The expected tokens are computed by hand. This file also passes when it is linked to elasticlunr-rs 3.0.2, with `as-original`.
use elasticlunr::lang::common::StopWordFilter;
use elasticlunr::lang::{tokenize_whitespace, English};
use elasticlunr::pipeline::{FnWrapper, PipelineFn};
use elasticlunr::{Index, IndexBuilder, Language, Pipeline};
use serde_json::{json, Value};
use std::cell::Cell;

fn value(index: &Index) -> Value {
    serde_json::from_str(&index.to_json()).unwrap()
}

/// The frequency of a token, in whole or in millionths.
fn frequency(index: &Index, field: &str, token: &str, doc_ref: &str) -> Option<f64> {
    let printed = value(index);
    let mut node = &printed["index"][field]["root"];
    for character in token.chars() {
        node = &node[character.to_string()];
    }
    let found = node["docs"][doc_ref]["tf"].as_f64()?;
    Some(if cfg!(feature = "as-original") {
        found
    } else {
        found / 1e6
    })
}

/// Words between commas, one stage that drops numbers, and one that reverses a token.
struct Lists {
    asked: Cell<u32>,
}

struct WithoutNumbers;

impl PipelineFn for WithoutNumbers {
    fn name(&self) -> String {
        "withoutNumbers".into()
    }

    fn filter(&self, token: String) -> Option<String> {
        Some(token).filter(|token| token.parse::<u64>().is_err())
    }
}

impl Language for Lists {
    fn name(&self) -> String {
        "Lists, \"of\" words".into()
    }

    fn code(&self) -> String {
        "li".into()
    }

    fn tokenize(&self, text: &str) -> Vec<String> {
        self.asked.set(self.asked.get() + 1);
        text.split(',').map(String::from).collect()
    }

    fn make_pipeline(&self) -> Pipeline {
        let turn = |token: String| Some(token.chars().rev().collect());
        Pipeline {
            queue: vec![
                Box::new(WithoutNumbers),
                Box::new(FnWrapper("turn\n".into(), turn)),
            ],
        }
    }
}

#[test]
fn a_language_makes_the_tokens() {
    let mut index = Index::with_language(
        Box::new(Lists {
            asked: Cell::new(0),
        }),
        &["words"],
    );
    index.add_doc("1", &["red fox,12,,Ab"]);
    let printed = value(&index);
    assert_eq!(printed["lang"], "Lists, \"of\" words");
    assert_eq!(printed["pipeline"], json!(["withoutNumbers", "turn\n"]));
    assert_eq!(
        printed["documentStore"]["docInfo"],
        json!({"1": {"words": 3}})
    );
    for token in ["xof der", "bA"] {
        assert_eq!(frequency(&index, "words", token, "1"), Some(1.0), "{token}");
    }
    assert_eq!(frequency(&index, "words", "21", "1"), None);
}

#[test]
fn a_field_has_a_tokenizer_and_the_stages_of_the_language() {
    let by_letter = Box::new(|text: &str| text.split('x').map(String::from).collect::<Vec<_>>());
    let mut index = IndexBuilder::new()
        .add_field("plain")
        .add_field_with_tokenizer("cut", by_letter)
        .build();
    index.add_doc("1", &["", "runningxthexRunningx,running."]);
    assert_eq!(
        frequency(&index, "cut", "run", "1"),
        Some(of_mode(2f64.sqrt()))
    );
    assert_eq!(frequency(&index, "cut", "Run", "1"), Some(1.0));
    assert_eq!(
        value(&index)["documentStore"]["docInfo"],
        json!({"1": {"plain": 0, "cut": 3}})
    );
}

#[test]
fn a_tokenizer_of_an_own_language_is_asked_once_for_each_value() {
    let by_letter = Box::new(|text: &str| vec![text.to_owned(), text.to_owned(), "7".to_owned()]);
    let language = Box::new(Lists {
        asked: Cell::new(0),
    });
    let mut index = IndexBuilder::with_language(language)
        .add_field_with_tokenizer("cut", by_letter)
        .build();
    index.add_doc("1", &["ab"]);
    assert_eq!(
        frequency(&index, "cut", "ba", "1"),
        Some(of_mode(2f64.sqrt()))
    );
}

/// A root, rounded down to millionths where the index has these.
fn of_mode(root: f64) -> f64 {
    if cfg!(feature = "as-original") {
        root
    } else {
        (root * 1e6).floor() / 1e6
    }
}

/// English with one stage more, as a builder of a site makes it.
struct Extended(English);

impl Language for Extended {
    fn name(&self) -> String {
        self.0.name()
    }

    fn code(&self) -> String {
        self.0.code()
    }

    fn tokenize(&self, text: &str) -> Vec<String> {
        tokenize_whitespace(text)
            .into_iter()
            .filter(|token| token.len() < 12)
            .collect()
    }

    fn make_pipeline(&self) -> Pipeline {
        let mut pipeline = self.0.make_pipeline();
        pipeline
            .queue
            .push(Box::new(StopWordFilter::new("common", &["page"])));
        pipeline
    }
}

#[test]
fn a_language_is_made_of_a_built_in_one() {
    let mut index = Index::with_language(Box::new(Extended(English::new())), &["body"]);
    index.add_doc("1", &["The pages were searching, extraordinarily"]);
    let printed = value(&index);
    assert_eq!(
        printed["pipeline"],
        json!(["trimmer", "stopWordFilter", "stemmer", "common"])
    );
    assert_eq!(
        printed["documentStore"]["docInfo"],
        json!({"1": {"body": 1}})
    );
    assert_eq!(frequency(&index, "body", "search", "1"), Some(1.0));
}

/// A language whose tokens are any texts.
struct Odd;

impl Language for Odd {
    fn name(&self) -> String {
        String::new()
    }

    fn code(&self) -> String {
        String::new()
    }

    fn tokenize(&self, text: &str) -> Vec<String> {
        vec![
            text.to_owned(),
            String::new(),
            "docs".into(),
            "df".into(),
            "d".into(),
            "\u{0}\"\\\u{10ffff}".into(),
        ]
    }

    fn make_pipeline(&self) -> Pipeline {
        Pipeline { queue: Vec::new() }
    }
}

#[test]
fn tokens_are_any_texts() {
    let fields = ["", "\"\\", "\u{1f600}"];
    let mut index = Index::with_language(Box::new(Odd), &fields);
    index.add_doc("", &["a b", "\u{7f}\n", "é"]);
    index.add_doc("\u{0}\"", &["a b"]);
    let printed = value(&index);
    assert_eq!(printed["fields"], json!(fields));
    assert_eq!(printed["pipeline"], json!([]));
    assert_eq!(
        printed["documentStore"]["docInfo"],
        json!({"": {"": 6, "\"\\": 6, "\u{1f600}": 6}, "\u{0}\"": {"": 6}})
    );
    for doc_ref in ["", "\u{0}\""] {
        for token in ["a b", "docs", "df", "d", "\u{0}\"\\\u{10ffff}"] {
            assert_eq!(
                frequency(&index, "", token, doc_ref),
                Some(1.0),
                "{token:?}"
            );
        }
    }
    assert_eq!(frequency(&index, "\u{1f600}", "é", ""), Some(1.0));
}
