//! What this crate reads and elasticlunr-rs 3.0.2 doesn't: an index with a pipeline, from a text
//! that is not static.
use elasticlunr::Index;

#[test]
fn an_index_reads_what_it_prints() {
    let mut index = Index::new(&["title", "body"]);
    index.add_doc("1", &["red fox", "the red dog, \"red\""]);
    index.add_doc("é\n", &["", "docs dfs"]);
    let printed = index.to_json();
    let read: Index = serde_json::from_reader(printed.as_bytes()).unwrap();
    let again: Index = serde_json::from_str(&read.to_json()).unwrap();
    assert_eq!(read.to_json(), again.to_json());
    let pipeline = r#""pipeline":["trimmer","stopWordFilter","stemmer"]"#;
    let value: serde_json::Value =
        serde_json::from_str(&printed.replace(pipeline, r#""pipeline":[]"#)).unwrap();
    assert_eq!(
        serde_json::from_str::<serde_json::Value>(&read.to_json()).unwrap(),
        value
    );
    assert_eq!(serde_json::to_value(&read).unwrap(), value);
}
