//! An index as mdBook makes it: three fields with one tokenizer, values of another type than text,
//! and the index as a part of what is serialized. With `as-original` this file also passes when it
//! is linked to elasticlunr-rs 3.0.2.
use elasticlunr::config::{SearchBool, SearchOptions, SearchOptionsField};
use elasticlunr::{Index, IndexBuilder};
use serde::Serialize;
use serde_json::{json, Value};
use std::borrow::Cow;
use std::collections::BTreeMap;

/// Words that are not too long.
fn tokenize(text: &str) -> Vec<String> {
    let words = text.split_whitespace().map(str::to_lowercase);
    words.filter(|word| word.len() <= 12).collect()
}

#[derive(Serialize)]
struct Script {
    results: SearchOptions,
    addresses: Vec<String>,
    index: Index,
}

fn script() -> Script {
    let mut index = IndexBuilder::new()
        .add_field_with_tokenizer("title", Box::new(&tokenize))
        .add_field_with_tokenizer("body", Box::new(&tokenize))
        .add_field_with_tokenizer("breadcrumbs", Box::new(&tokenize))
        .build();
    let mut addresses = Vec::new();
    for (address, items) in [
        ("a.html", ["Ferries", "Ferries & boats", "Ferries"]),
        ("b.html#c", ["Boats", "Extraordinarily", "Ferries » Boats"]),
    ] {
        let values = items.iter().map(|&item| Cow::from(item));
        index.add_doc(&addresses.len().to_string(), values);
        addresses.push(address.to_string());
    }
    let title = SearchOptionsField {
        boost: Some(2),
        ..SearchOptionsField::default()
    };
    let results = SearchOptions {
        bool: SearchBool::And,
        expand: true,
        fields: BTreeMap::from([("title".to_string(), title)]),
    };
    Script {
        results,
        addresses,
        index,
    }
}

/// The frequencies of the token `boat` in a field.
fn boats<'v>(value: &'v Value, field: &str) -> &'v Value {
    &value["index"]["index"][field]["root"]["b"]["o"]["a"]["t"]["docs"]
}

#[test]
fn a_book_has_an_index() {
    let value = serde_json::to_value(script()).unwrap();
    let results = json!({"bool": "AND", "expand": true, "fields": {"title": {"boost": 2}}});
    assert_eq!(value["results"], results);
    assert_eq!(value["addresses"], json!(["a.html", "b.html#c"]));
    let lengths = json!({
        "0": {"title": 1, "body": 2, "breadcrumbs": 1},
        "1": {"title": 1, "body": 0, "breadcrumbs": 2},
    });
    assert_eq!(value["index"]["documentStore"]["docInfo"], lengths);
    let text = serde_json::to_string(&script()).unwrap();
    assert_eq!(serde_json::from_str::<Value>(&text).unwrap(), value);
}

#[test]
fn each_field_counts_its_words() {
    let value = serde_json::to_value(script()).unwrap();
    if cfg!(feature = "as-original") {
        let (one, root) = (json!({"tf": 1.0}), json!({"tf": 2f64.sqrt()}));
        assert_eq!(boats(&value, "title"), &json!({"1": one}));
        assert_eq!(boats(&value, "body"), &json!({"0": one, "1": one}));
        assert_eq!(boats(&value, "breadcrumbs"), &json!({"0": one, "1": root}));
    } else {
        let one = json!({"tf": 1_000_000});
        assert_eq!(boats(&value, "title"), &json!({"1": one}));
        assert_eq!(boats(&value, "body"), &json!({"0": one}));
        assert_eq!(boats(&value, "breadcrumbs"), &json!({"1": one}));
    }
}
