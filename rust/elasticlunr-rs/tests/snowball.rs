//! Snowball's stemmers, on the tables of words of the repository and in an index.
#![cfg(feature = "rust-stemmers")]
use elasticlunr::lang::{from_name, languages};
use elasticlunr::Index;
use std::path::{Path, PathBuf};
use std::{env, fs};

/// The table of words of a language: that of the Snowball before 2.0, where it has other stems.
fn table(code: &str) -> Option<PathBuf> {
    let own = Path::new(env!("CARGO_MANIFEST_DIR")).join("../../crates/elasticlunr_vectors/data");
    let tables = env::var_os("ELASTICLUNR_TABLES").map_or(own, PathBuf::from);
    ["older", "current"]
        .map(|version| tables.join(format!("snowball/{version}/{code}.tsv")))
        .into_iter()
        .find(|table| table.is_file())
}

#[test]
fn stems_are_those_of_the_tables() {
    let (mut stemmers, mut rows) = (0, 0);
    for language in languages() {
        let code = language.code();
        let stages = language.make_pipeline().queue;
        if let Some(table) = table(&code) {
            for line in fs::read_to_string(table).unwrap().lines() {
                let (word, stem) = line.split_once('\t').unwrap();
                let found = stages[2].filter(word.to_owned()).unwrap_or_default();
                assert_eq!(found, stem, "{code} {word}");
                rows += 1;
            }
            stemmers += 1;
        }
    }
    assert_eq!(stemmers, 13 + usize::from(cfg!(feature = "hu")));
    assert!(rows >= 9_200, "{rows}");
}

#[test]
fn a_token_without_a_stem_is_dropped() {
    let turkish = from_name("Turkish").unwrap().make_pipeline().queue;
    assert_eq!(turkish[2].name(), "stemmer-tr");
    assert_eq!(turkish[2].filter("sunuz".into()), None);
    assert_eq!(turkish[2].filter("".into()), None);
}

#[test]
fn long_tokens_have_a_stem() {
    let german = from_name("German").unwrap().make_pipeline().queue;
    let long = "ab".repeat(50_000);
    assert!(german[2].filter(long.clone() + "heit") == Some(long));
    let sharp = "\u{df}".repeat(20_000);
    assert!(german[2].filter(sharp) == Some("s".repeat(40_000)));
}

#[test]
fn steps_that_recur_need_half_a_megabyte_of_stack() {
    let work = || {
        let turkish = from_name("Turkish").unwrap().make_pipeline().queue;
        let many = "ev".to_owned() + &"n\u{131}nki".repeat(2_000);
        let stem = turkish[2].filter(many.clone()).unwrap();
        assert!(many.starts_with(&stem) && stem.len() < many.len());
    };
    let small = std::thread::Builder::new().stack_size(512 << 10);
    small.spawn(work).unwrap().join().unwrap();
}

#[test]
fn an_index_has_stems() {
    let mut index = Index::with_language(from_name("German").unwrap(), &["body"]);
    index.add_doc("dorf", &["Viele Häuser"]);
    index.add_doc("stadt", &["Das Haus"]);
    let value: serde_json::Value = serde_json::from_str(&index.to_json()).unwrap();
    let stages = ["trimmer-de", "stopWordFilter-de", "stemmer-de"];
    assert_eq!(value["pipeline"], serde_json::json!(stages));
    assert_eq!(value["lang"], "German");
    let node = &value["index"]["body"]["root"]["h"]["a"]["u"]["s"];
    assert_eq!(node["df"], 2);
    assert!(node["docs"]["dorf"]["tf"].is_number() && node["docs"]["stadt"]["tf"].is_number());
}

#[cfg(feature = "hu")]
#[test]
fn hungarian_has_its_stages() {
    let hungarian = from_name("Hungarian").unwrap();
    assert_eq!(hungarian.code(), "hu");
    let stages = hungarian.make_pipeline().queue;
    assert_eq!(
        stages[0].filter("(h\u{e1}z)".into()).as_deref(),
        Some("h\u{e1}z")
    );
    assert_eq!(stages[1].filter("alatt".into()), None);
    assert_eq!(stages[1].name(), "stopWordFilter-hu");
}
