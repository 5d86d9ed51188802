//! Indexes and tries that are deserialized. With `as-original` this file also passes when it is
//! linked to elasticlunr-rs 3.0.2, but for the indexes that this crate alone reads, which say so.
use elasticlunr::inverted_index::InvertedIndex;
use elasticlunr::Index;
use std::panic::{catch_unwind, AssertUnwindSafe};

/// An index as elasticlunr-rs prints it, without a pipeline, as it reads it.
const PRINTED: &str = concat!(
    r#"{"fields":["body"],"pipeline":[],"ref":"key","version":"0.9.4","index":{"body":{"root":{"docs":{},"df":0,"#,
    r#""d":{"docs":{"1":{"tf":2.5}},"df":7},"f":{"docs":{},"df":-1}}}},"documentStore":{"save":true,"docs":{"1":{"key":"1"}},"#,
    r#""docInfo":{"1":{"body":2},"2":{}},"length":9},"lang":"German"}"#
);

#[test]
fn an_index_is_read_and_printed() {
    let mut index: Index = serde_json::from_str(PRINTED).unwrap();
    assert_eq!(index.to_json(), PRINTED);
    assert_eq!(index.get_fields(), ["body"]);
    index.add_doc("2", &[] as &[&str]);
    assert_eq!(
        index.to_json(),
        PRINTED
            .replace(r#""1":{"key":"1"}"#, r#""1":{"key":"1"},"2":{"key":"2"}"#)
            .replace(":9}", ":10}")
    );
    assert!(catch_unwind(AssertUnwindSafe(|| index.add_doc("3", &["a"]))).is_err());
}

#[test]
fn an_index_that_is_none_is_refused() {
    for (old, new) in [
        (r#""fields":["body"],"#, ""),
        (r#""lang":"German""#, r#""lang":"german""#),
        (r#""tf":2.5"#, r#""tf":"x""#),
        (r#""df":7"#, r#""df":7.5"#),
        (r#""f":{"#, r#""fo":{"#),
        (r#"{"tf":2.5}},"df":7"#, r#"{"tf":2.5}}"#),
        (r#""length":9"#, r#""length":-9"#),
        (r#""version":"0.9.4","#, ""),
    ] {
        assert!(PRINTED.contains(old), "{old}");
        let text: &'static str = Box::leak(PRINTED.replacen(old, new, 1).into_boxed_str());
        assert!(serde_json::from_str::<Index>(text).is_err(), "{text}");
    }
}

#[test]
fn tries_are_read_in_any_order_of_keys() {
    let trie: InvertedIndex =
        serde_json::from_str(r#"{"root":{"é":{"df":1,"docs":{"x":{"tf":1},"y":[3]}},"docs":{},"df":0,"d":{"docs":{},"df":0}}}"#).unwrap();
    assert_eq!(
        (
            trie.get_term_frequency("x", "é"),
            trie.get_term_frequency("y", "é")
        ),
        (1.0, 3.0)
    );
    assert!(trie.has_token("d") && !trie.has_token("e"));
    let mut twice: InvertedIndex = serde_json::from_str(
        r#"{"root":{"docs":{},"df":0,"a":{"docs":{},"df":1},"a":{"docs":{},"df":2}}}"#,
    )
    .unwrap();
    assert_eq!(twice.get_doc_frequency("a"), 2);
    twice.add_token("1", "ab", 1.0);
    assert_eq!(twice.get_doc_frequency("ab"), 1);
}

#[test]
fn a_trie_that_is_none_is_refused() {
    for text in [
        "{}",
        r#"{"root":[{},0]}"#,
        r#"{"root":{"docs":{}}}"#,
        r#"{"root":{"df":0}}"#,
        r#"{"root":{"docs":{},"df":0,"df":1}}"#,
        r#"{"root":{"docs":{},"df":0,"docs":{}}}"#,
        r#"{"root":{"docs":{},"df":0,"":{"docs":{},"df":0}}}"#,
        r#"{"root":{"docs":{},"df":0,"x":1}}"#,
        r#"{"root":{"docs":{"a":{"tf":null}},"df":0}}"#,
        r#"{"root":{"docs":{},"df":9223372036854775808}}"#,
    ] {
        assert!(
            serde_json::from_str::<InvertedIndex>(text).is_err(),
            "{text}"
        );
    }
}
