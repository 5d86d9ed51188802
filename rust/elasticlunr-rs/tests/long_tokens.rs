//! Tokens of 100,000 characters, on a stack of 256 KB: nothing recurses over the length of a token.
use elasticlunr::inverted_index::InvertedIndex;
use elasticlunr::{Index, Language, Pipeline};
use std::thread;

const LENGTH: usize = 100_000;
const STACK: usize = 256 * 1024;

fn on_a_small_stack(work: impl FnOnce() + Send + 'static) {
    let thread = thread::Builder::new()
        .stack_size(STACK)
        .spawn(work)
        .unwrap();
    thread.join().unwrap();
}

fn long() -> String {
    "é".repeat(LENGTH)
}

/// The texts as they are.
struct Whole;

impl Language for Whole {
    fn name(&self) -> String {
        "Whole".into()
    }

    fn code(&self) -> String {
        "wh".into()
    }

    fn tokenize(&self, text: &str) -> Vec<String> {
        vec![text.to_owned()]
    }

    fn make_pipeline(&self) -> Pipeline {
        Pipeline { queue: Vec::new() }
    }
}

/// How many characters of the long token an index has.
fn edges(text: &str) -> usize {
    text.matches("\"é\":").count()
}

#[test]
fn an_index_prints_a_long_token() {
    on_a_small_stack(|| {
        let mut index = Index::with_language(Box::new(Whole), &["x", "y"]);
        index.add_doc("1", &[long()]);
        assert_eq!(edges(&index.to_json()), LENGTH);
    });
}

#[test]
fn a_built_in_language_has_long_tokens() {
    on_a_small_stack(|| {
        let mut index = Index::new(&["x"]);
        index.add_doc(
            "1",
            &["b".repeat(LENGTH) + " " + &"y".repeat(LENGTH) + "ing"],
        );
        let text = index.to_json();
        assert_eq!(text.matches("\"b\":").count(), LENGTH);
        // the last y becomes an i
        assert_eq!(text.matches("\"y\":").count(), LENGTH - 1);
    });
}

#[test]
fn stages_take_long_tokens() {
    on_a_small_stack(|| {
        let token = "y".repeat(LENGTH) + "ing";
        for language in elasticlunr::lang::languages() {
            let left = language.make_pipeline().run(vec![token.clone(), long()]);
            assert!(left.len() <= 2, "{}", language.name());
        }
    });
}

#[test]
fn indented_text_is_as_deep() {
    on_a_small_stack(|| {
        // each line is indented by its depth, so the length of the text is the square of the
        // token's
        let token = &long()[..4_000];
        let mut index = Index::with_language(Box::new(Whole), &["x"]);
        index.add_doc("1", &[token]);
        assert_eq!(edges(&index.to_json_pretty()), 2_000);
    });
}

#[test]
fn a_trie_walks_a_long_token() {
    on_a_small_stack(|| {
        let (mut one, mut other) = (InvertedIndex::new(), InvertedIndex::new());
        for trie in [&mut one, &mut other] {
            trie.add_token("1", &long(), 1.0);
        }
        assert!(one == other);
        assert_eq!(
            (
                one.get_doc_frequency(&long()),
                one.get_term_frequency("1", &long())
            ),
            (1, 1.0)
        );
        assert_eq!(one.get_docs(&long()).unwrap().len(), 1);
        one.remove_token("1", &long());
        assert!(one != other && one.has_token(&long()));
        assert!(format!("{other:?}").len() > LENGTH);
    });
}

#[test]
fn serde_refuses_a_long_token() {
    on_a_small_stack(|| {
        let mut trie = InvertedIndex::new();
        trie.add_token("1", &long(), 1.0);
        assert!(serde_json::to_string(&trie).is_err());
        let mut index = Index::with_language(Box::new(Whole), &["x"]);
        index.add_doc("1", &[long()]);
        assert!(serde_json::to_value(&index).is_err());
        let text = r#"{"root":"#.to_owned() + &r#"{"docs":{},"df":0,"a":"#.repeat(LENGTH);
        assert!(serde_json::from_str::<InvertedIndex>(&text).is_err());
    });
}

#[test]
fn serde_takes_a_token_of_900_characters() {
    let token = &long()[..1_800];
    let mut trie = InvertedIndex::new();
    trie.add_token("1", token, 1.0);
    assert_eq!(edges(&serde_json::to_string(&trie).unwrap()), 900);
    let mut index = Index::with_language(Box::new(Whole), &["x"]);
    index.add_doc("1", &[token]);
    assert_eq!(serde_json::to_string(&index).unwrap(), index.to_json());
}
