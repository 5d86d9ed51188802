//! Each public item of elasticlunr-rs 3.0.2, used once, and what it answers. The texts of indexes
//! are those of the definition, and with `as-original` those that elasticlunr-rs prints: this file
//! also passes when it is linked to that crate.
use elasticlunr::config::{SearchBool, SearchOptions, SearchOptionsField};
use elasticlunr::document_store::DocumentStore;
use elasticlunr::inverted_index::InvertedIndex;
use elasticlunr::lang::common::{RegexTrimmer, StopWordFilter};
use elasticlunr::pipeline::{FnWrapper, PipelineFn};
use elasticlunr::{lang, Index, IndexBuilder, Language, Pipeline, ELASTICLUNR_VERSION};
use std::collections::BTreeMap;

const AS_ORIGINAL: bool = cfg!(feature = "as-original");

/// The text of one document, with a token in two fields, twice in the second one.
const PLAIN: &str = concat!(
    r#"{"documentStore":{"docInfo":{"a":{"body":2,"title":1}},"#,
    r#""docs":{"a":{"body":"go to a go","id":"a","title":"Go"}},"length":1,"save":true},"fields":["title","body"],"#,
    r#""index":{"body":{"root":{"df":0,"docs":{},"g":{"df":0,"docs":{},"o":{"df":1,"docs":{"a":{"tf":1414213}}}}}},"#,
    r#""title":{"root":{"df":0,"docs":{},"g":{"df":0,"docs":{},"o":{"df":1,"docs":{"a":{"tf":1000000}}}}}}},"#,
    r#""lang":"English","pipeline":["trimmer","stopWordFilter","stemmer"],"ref":"id","version":"0.9.5"}"#
);
const ORIGINAL: &str = concat!(
    r#"{"fields":["title","body"],"pipeline":["trimmer","stopWordFilter","stemmer"],"ref":"id","version":"0.9.5","#,
    r#""index":{"body":{"root":{"docs":{},"df":0,"g":{"docs":{},"df":0,"o":{"docs":{"a":{"tf":1.7320508075688772}},"df":1}}}},"#,
    r#""title":{"root":{"docs":{},"df":0,"g":{"docs":{},"df":0,"o":{"docs":{"a":{"tf":1.0}},"df":1}}}}},"#,
    r#""documentStore":{"save":true,"docs":{"a":{"body":"go to a go","id":"a","title":"Go"}},"#,
    r#""docInfo":{"a":{"body":2,"title":1}},"length":1},"lang":"English"}"#
);

fn of_mode<'t>(plain: &'t str, original: &'t str) -> &'t str {
    if AS_ORIGINAL {
        original
    } else {
        plain
    }
}

#[test]
fn an_index_prints_its_documents() {
    let mut index = Index::new(&["title", "body"]);
    index.add_doc("a", &["Go", "go to a go"]);
    assert_eq!(index.to_json(), of_mode(PLAIN, ORIGINAL));
    assert_eq!(index.get_fields(), ["title", "body"]);
    let value: serde_json::Value = serde_json::from_str(&index.to_json()).unwrap();
    let read: serde_json::Value = serde_json::from_str(&index.to_json_pretty()).unwrap();
    assert_eq!(read, value);
    assert_eq!(serde_json::to_string(&index).unwrap(), index.to_json());
    assert_eq!(
        serde_json::to_string_pretty(&index).unwrap(),
        index.to_json_pretty()
    );
    assert_eq!(serde_json::to_value(&index).unwrap(), value);
}

#[test]
fn indented_text_has_a_line_for_each_member() {
    let index = Index::new(&[] as &[&str]);
    let plain = "{\n  \"documentStore\": {\n    \"docInfo\": {},\n    \"docs\": {},\n    \"length\": 0,\n    \"save\": true\n  },\n  \
                 \"fields\": [],\n  \"index\": {},\n  \"lang\": \"English\",\n  \"pipeline\": [\n    \"trimmer\",\n    \
                 \"stopWordFilter\",\n    \"stemmer\"\n  ],\n  \"ref\": \"id\",\n  \"version\": \"0.9.5\"\n}";
    let original = "{\n  \"fields\": [],\n  \"pipeline\": [\n    \"trimmer\",\n    \"stopWordFilter\",\n    \"stemmer\"\n  ],\n  \
                    \"ref\": \"id\",\n  \"version\": \"0.9.5\",\n  \"index\": {},\n  \"documentStore\": {\n    \"save\": true,\n    \
                    \"docs\": {},\n    \"docInfo\": {},\n    \"length\": 0\n  },\n  \"lang\": \"English\"\n}";
    assert_eq!(index.to_json_pretty(), of_mode(plain, original));
}

#[test]
fn a_builder_has_settings() {
    let builder = IndexBuilder::new()
        .save_docs(false)
        .add_field("x")
        .add_fields(vec![String::from("y")])
        .set_ref("key");
    let builder = builder.add_field_with_tokenizer(
        "z",
        Box::new(|text| text.split('/').map(String::from).collect()),
    );
    let mut index = builder.build();
    index.add_doc("1", &["", "", "ab/c"]);
    let value: serde_json::Value = serde_json::from_str(&index.to_json()).unwrap();
    assert_eq!(value["ref"], "key");
    assert_eq!(value["documentStore"]["docs"], serde_json::json!({"1": {}}));
    assert_eq!(
        value["documentStore"]["docInfo"],
        serde_json::json!({"1": {"x": 0, "y": 0, "z": 2}})
    );
    assert_eq!(value["index"]["z"]["root"]["a"]["b"]["df"], 1);
    assert_eq!(
        IndexBuilder::default().build().to_json(),
        Index::new(Vec::<String>::new()).to_json()
    );
    let language = Box::new(lang::English::new());
    assert_eq!(
        IndexBuilder::with_language(language).build().to_json(),
        Index::new(Vec::<String>::new()).to_json()
    );
}

#[test]
fn the_reference_field_is_stored_and_not_indexed() {
    let mut index = Index::with_language(Box::new(lang::English::new()), &["id", "body"]);
    index.add_doc("1", &["fox", "red"]);
    index.add_doc("2", &[] as &[&str]);
    let value: serde_json::Value = serde_json::from_str(&index.to_json()).unwrap();
    assert_eq!(
        value["documentStore"]["docs"],
        serde_json::json!({"1": {"id": "fox", "body": "red"}, "2": {"id": "2"}})
    );
    assert_eq!(
        value["documentStore"]["docInfo"],
        serde_json::json!({"1": {"body": 1}})
    );
    assert_eq!(
        value["index"]["id"],
        serde_json::json!({"root": {"docs": {}, "df": 0}})
    );
}

#[test]
fn a_document_of_the_same_reference_comes_again() {
    let mut index = Index::new(&["x", "y"]);
    index.add_doc("1", &["red fox", "dog"]);
    index.add_doc("1", &["fox"]);
    let value: serde_json::Value = serde_json::from_str(&index.to_json()).unwrap();
    let root = &value["index"]["x"]["root"];
    assert_eq!(root["f"]["o"]["x"]["df"], 1);
    assert_eq!(
        value["documentStore"]["docs"],
        serde_json::json!({"1": {"id": "1", "x": "fox"}})
    );
    let (red, lengths) = (
        &root["r"]["e"]["d"]["df"],
        &value["documentStore"]["docInfo"],
    );
    if AS_ORIGINAL {
        assert_eq!(
            (red, lengths),
            (&1.into(), &serde_json::json!({"1": {"x": 1, "y": 1}}))
        );
    } else {
        assert!(red.is_null() || *red == 0, "{red}");
        assert_eq!(lengths, &serde_json::json!({"1": {"x": 1}}));
    }
}

#[test]
fn the_version_is_that_of_the_script() {
    assert_eq!(ELASTICLUNR_VERSION, "0.9.5");
}

/// The languages of the default features.
fn default_languages() -> Vec<Box<dyn Language>> {
    let all = lang::languages().into_iter();
    all.filter(|language| language.code() != "hu").collect()
}

#[test]
fn languages_are_looked_up() {
    let names: Vec<String> = default_languages()
        .iter()
        .map(|language| language.name())
        .collect();
    let expected = "English Arabic Danish Dutch Finnish French German Italian Korean Norwegian Portuguese Romanian Russian Spanish \
                    Swedish Turkish";
    assert_eq!(names, expected.split(' ').collect::<Vec<_>>());
    let codes: Vec<String> = default_languages()
        .iter()
        .map(|language| language.code())
        .collect();
    assert_eq!(
        codes.join(" "),
        "en ar da du fi fr de it ko no pt ro ru es sv tr"
    );
    assert_eq!(lang::from_code("DE").unwrap().name(), "German");
    assert_eq!(lang::from_name("Dutch").unwrap().code(), "du");
    assert!(
        lang::from_code("nl").is_none()
            && lang::from_name("dutch").is_none()
            && lang::from_code("German").is_none()
    );
}

#[test]
fn each_language_is_a_type() {
    let made: Vec<Box<dyn Language>> = vec![
        Box::new(lang::English::new().clone()),
        Box::new(lang::Arabic::new()),
        Box::new(lang::Danish::new().clone()),
        Box::new(lang::Dutch::new().clone()),
        Box::new(lang::Finnish::new().clone()),
        Box::new(lang::French::new().clone()),
        Box::new(lang::German::new().clone()),
        Box::new(lang::Italian::new().clone()),
        Box::new(lang::Korean::new().clone()),
        Box::new(lang::Norwegian::new().clone()),
        Box::new(lang::Portuguese::new().clone()),
        Box::new(lang::Romanian::new().clone()),
        Box::new(lang::Russian::new().clone()),
        Box::new(lang::Spanish::new().clone()),
        Box::new(lang::Swedish::new().clone()),
        Box::new(lang::Turkish {}),
    ];
    let names: Vec<String> = made.iter().map(|language| language.name()).collect();
    assert_eq!(
        names,
        default_languages()
            .iter()
            .map(|language| language.name())
            .collect::<Vec<_>>()
    );
}

#[test]
fn a_text_is_cut_into_words() {
    assert_eq!(
        lang::tokenize_whitespace(" Sea-Side\u{85}\u{a0}ÄB\tΟΣ  - x"),
        ["sea", "side", "äb", "ος", "x"]
    );
    assert_eq!(lang::English::new().tokenize("Two Words"), ["two", "words"]);
    assert!(lang::tokenize_whitespace(" - ").is_empty());
}

#[test]
fn a_filter_drops_its_words() {
    let filter = StopWordFilter::new("few", &["the"]);
    assert_eq!(filter.name(), "few");
    assert_eq!(filter.clone().filter("the".into()), None);
    assert_eq!(filter.filter("then".into()), Some("then".into()));
}

#[test]
fn a_trimmer_cuts_to_its_class() {
    let trimmer = RegexTrimmer::new("cut", r"\p{Greek}0-9");
    assert_eq!(trimmer.name(), "cut");
    assert_eq!(
        trimmer.clone().filter("«αβ-7».".into()),
        Some("αβ-7".into())
    );
    assert_eq!(trimmer.filter("αβ".into()), Some("αβ".into()));
    assert_eq!(trimmer.filter("abc".into()), None);
    let other = RegexTrimmer::new("other", "^a");
    assert_eq!(other.filter("^xaxb".into()), Some("^xa".into()));
}

#[test]
fn a_pipeline_runs_its_stages_in_order() {
    let tail = |token: String| token.strip_suffix('s').map(String::from);
    let wrapper = FnWrapper("tail".into(), tail);
    assert_eq!(wrapper.clone().name(), "tail");
    assert_eq!(wrapper.filter("cats".into()), Some("cat".into()));
    let filter = StopWordFilter::new("few", &["the"]);
    let pipeline = Pipeline {
        queue: vec![Box::new(filter), Box::new(wrapper)],
    };
    let tokens = ["cats", "the", "dog", "s"].map(String::from);
    assert_eq!(pipeline.run(tokens.to_vec()), ["cat", ""]);
    assert_eq!(
        serde_json::to_string(&pipeline).unwrap(),
        r#"["few","tail"]"#
    );
    let read: Pipeline = serde_json::from_str("[]").unwrap();
    assert!(read.queue.is_empty());
}

#[test]
fn options_of_a_search_are_printed() {
    let field = SearchOptionsField {
        boost: Some(2),
        bool: Some(SearchBool::And),
        expand: None,
    };
    let options = SearchOptions {
        fields: BTreeMap::from([("title".to_string(), field)]),
        ..Default::default()
    };
    let text = r#"{"bool":"OR","expand":false,"fields":{"title":{"boost":2,"bool":"AND"}}}"#;
    assert_eq!(serde_json::to_string(&options).unwrap(), text);
    assert_eq!(
        serde_json::from_str::<SearchOptions>(text).unwrap(),
        options.clone()
    );
    assert_eq!(
        SearchOptionsField::default(),
        SearchOptionsField {
            boost: None,
            bool: None,
            expand: None
        }
    );
    assert_eq!(SearchBool::default(), SearchBool::Or);
}

/// A store of one document, which was added twice.
fn a_store() -> (DocumentStore, BTreeMap<String, String>) {
    let mut store = DocumentStore::new(true);
    let doc = BTreeMap::from([("body".to_string(), "red".to_string())]);
    store.add_doc("1", doc.clone());
    store.add_doc("1", doc.clone());
    store.add_field_length("1", "body", 4);
    (store, doc)
}

#[test]
fn a_store_has_texts_and_lengths() {
    assert!(DocumentStore::new(true).is_empty());
    let (store, doc) = a_store();
    assert!(store.is_stored() && store.has_doc("1") && !store.has_doc("2"));
    assert_eq!((store.len(), store.length), (1, 1));
    assert_eq!(store.get_doc("1"), Some(doc.clone()));
    assert_eq!(store.get_field_length("1", "body"), 4);
    assert_eq!(store.get_field_length("1", "title"), 0);
    let mut small = DocumentStore::new(false);
    small.add_doc("1", doc);
    assert!(!small.is_stored());
    assert_eq!(small.get_doc("1"), Some(BTreeMap::new()));
}

#[test]
fn a_store_is_printed_and_read() {
    let (store, _) = a_store();
    let text = r#"{"save":true,"docs":{"1":{"body":"red"}},"docInfo":{"1":{"body":4}},"length":1}"#;
    assert_eq!(serde_json::to_string(&store).unwrap(), text);
    let mut read: DocumentStore = serde_json::from_str(text).unwrap();
    read.remove_doc("1");
    read.remove_doc("2");
    assert_eq!((read.len(), read.length), (0, 0));
    assert_eq!(read.get_doc("1"), None);
    assert_eq!(read.get_field_length("1", "body"), 0);
    assert_eq!(read.doc_info, store.clone().doc_info);
}

/// A trie with a token that was added again, and with the empty token.
fn a_trie() -> InvertedIndex {
    let mut trie = InvertedIndex::new();
    trie.add_token("1", "ab", 2.0);
    trie.add_token("1", "ab", 1.5);
    trie.add_token("2", "ab", 1.0);
    trie.add_token("2", "aΩ", 1.0);
    trie.add_token("2", "", 1.0);
    trie
}

#[test]
fn a_trie_has_tokens() {
    let trie = a_trie();
    let docs = BTreeMap::from([("1".to_string(), 1.5), ("2".to_string(), 1.0)]);
    assert_eq!(trie.get_docs("ab"), Some(docs));
    assert_eq!(trie.get_docs("a"), Some(BTreeMap::new()));
    assert_eq!(trie.get_docs("b"), None);
    assert!(trie.has_token("a") && trie.has_token("") && !trie.has_token("abc"));
    assert_eq!(trie.get_term_frequency("1", "ab"), 1.5);
    assert_eq!(trie.get_term_frequency("3", "ab"), 0.0);
    assert_eq!(trie.get_doc_frequency("ab"), 2);
    assert_eq!(trie.get_doc_frequency("x"), 0);
    assert_eq!(trie.get_doc_frequency(""), 0);
    assert!(format!("{trie:?}").contains('Ω'));
}

#[test]
fn a_trie_loses_tokens() {
    let mut trie = a_trie();
    for (doc_ref, token) in [("1", "ab"), ("3", "ab"), ("2", ""), ("2", "abc")] {
        trie.remove_token(doc_ref, token);
        trie.remove_token(doc_ref, token);
    }
    assert_eq!(trie.get_doc_frequency("ab"), 1);
    assert_eq!(trie.get_docs("ab").unwrap().len(), 1);
    trie.remove_token("2", "ab");
    assert_eq!(trie.get_docs("ab"), Some(BTreeMap::new()));
}

#[test]
fn a_trie_is_printed_and_read() {
    let text = concat!(
        r#"{"root":{"docs":{},"df":0,"a":{"docs":{},"df":0,"#,
        r#""b":{"docs":{"1":{"tf":1.5},"2":{"tf":1.0}},"df":2},"#,
        r#""Ω":{"docs":{"2":{"tf":1.0}},"df":1}}}}"#
    );
    assert_eq!(serde_json::to_string(&a_trie()).unwrap(), text);
    assert_eq!(
        serde_json::from_str::<InvertedIndex>(text).unwrap(),
        a_trie()
    );
}

#[test]
fn tries_are_compared_by_what_they_hold() {
    let (mut one, mut other) = (InvertedIndex::new(), InvertedIndex::default());
    assert_eq!(one, other);
    for token in ["ab", "ac"] {
        one.add_token("1", token, 1.0);
    }
    for token in ["ac", "ab"] {
        assert_ne!(one, other);
        other.add_token("1", token, 1.0);
    }
    assert_eq!(one, other);
    other.add_token("1", "ab", 2.0);
    assert_ne!(one, other);
    one.add_token("1", "ab", f64::NAN);
    assert_eq!(
        serde_json::to_value(&one).unwrap()["root"]["a"]["b"]["docs"]["1"]["tf"],
        serde_json::Value::Null
    );
}
