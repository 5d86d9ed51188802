//! What panics: just what panics in elasticlunr-rs 3.0.2.
use elasticlunr::lang::common::RegexTrimmer;
use elasticlunr::{Index, IndexBuilder};
use std::panic::{catch_unwind, AssertUnwindSafe};

#[test]
#[should_panic]
fn two_fields_of_one_name() {
    Index::new(&["title", "body", "title"]);
}

#[test]
#[should_panic]
fn two_fields_of_one_name_in_turn() {
    IndexBuilder::new().add_field("x").add_field("x");
}

#[test]
#[should_panic]
fn two_fields_of_one_name_and_a_tokenizer() {
    IndexBuilder::new()
        .add_field("x")
        .add_field_with_tokenizer("x", Box::new(|_| Vec::new()));
}

#[test]
#[should_panic]
fn more_values_than_fields() {
    Index::new(&["body"]).add_doc("1", &["a", "b"]);
}

#[test]
#[should_panic]
fn a_class_that_is_none() {
    RegexTrimmer::new("name", r"\p{NoScript}");
}

#[test]
fn an_index_goes_on_after_a_panic() {
    let mut index = Index::new(&["body"]);
    index.add_doc("1", &["red"]);
    let answer = catch_unwind(AssertUnwindSafe(|| index.add_doc("2", &["fox", "dog"])));
    assert!(answer.is_err());
    index.add_doc("3", &["red"]);
    let printed: serde_json::Value = serde_json::from_str(&index.to_json()).unwrap();
    assert_eq!(printed["index"]["body"]["root"]["r"]["e"]["d"]["df"], 2);
    assert_eq!(printed["documentStore"]["length"], 2);
}
