//! The stages of the built-in languages, on the tables of the repository, whose answers were
//! computed by elasticlunr-rs 3.0.2.
use elasticlunr::lang::{from_code, languages};
use elasticlunr::Language;
use std::path::{Path, PathBuf};
use std::{env, fs};

/// A table of the repository, or of the folder that ELASTICLUNR_TABLES names.
fn data(name: &str) -> PathBuf {
    let own = "../../crates/elasticlunr_vectors/data";
    env::var_os("ELASTICLUNR_TABLES")
        .map_or_else(
            || Path::new(env!("CARGO_MANIFEST_DIR")).join(own),
            PathBuf::from,
        )
        .join(name)
}

fn stage(language: &dyn Language, number: usize, token: &str) -> Option<String> {
    language.make_pipeline().queue[number].filter(token.to_owned())
}

#[test]
fn words_have_their_stems() {
    let english = from_code("en").unwrap();
    let stages = english.make_pipeline().queue;
    let table = fs::read_to_string(data("stems.tsv")).unwrap();
    let mut rows = 0;
    for line in table.lines() {
        let (word, stem) = line.split_once('\t').unwrap();
        let (word, stem): (String, String) = (
            serde_json::from_str(word).unwrap(),
            serde_json::from_str(stem).unwrap(),
        );
        assert_eq!(stages[2].filter(word.clone()), Some(stem), "{word:?}");
        rows += 1;
    }
    assert!(rows >= 2_900, "{rows}");
}

#[test]
fn stop_words_are_those_of_the_repository() {
    let mut lists = 0;
    for language in languages()
        .iter()
        .filter(|language| !["ar", "hu"].contains(&language.code().as_str()))
    {
        let words = fs::read_to_string(data("stopwords").join(language.code() + ".txt")).unwrap();
        let words: Vec<String> = serde_json::from_str(&words).unwrap();
        let filter = &language.make_pipeline().queue[1];
        for word in words {
            assert_eq!(
                filter.filter(word.clone()),
                None,
                "{} {word}",
                language.name()
            );
            let more = word + "\u{0}";
            assert_eq!(
                filter.filter(more.clone()),
                Some(more),
                "{}",
                language.name()
            );
        }
        lists += 1;
    }
    assert_eq!(lists, 15);
}

#[test]
fn stages_have_names() {
    for language in languages() {
        let names: Vec<String> = language
            .make_pipeline()
            .queue
            .iter()
            .map(|stage| stage.name())
            .collect();
        let code = language.code();
        let expected = match code.as_str() {
            "en" => "trimmer stopWordFilter stemmer".into(),
            "ar" => "stemmer-ar".into(),
            "ko" => "trimmer-ko stopWordFilter-ko stemmer-ko".into(),
            code if cfg!(feature = "rust-stemmers") => {
                format!("trimmer-{code} stopWordFilter-{code} stemmer-{code}")
            }
            code => format!("trimmer-{code} stopWordFilter-{code}"),
        };
        assert_eq!(names.join(" "), expected);
    }
}

#[test]
fn trimmers_keep_their_scripts() {
    for (code, token, left) in [
        ("en", "'_a1é'", Some("_a1")),
        ("en", "é", Some("")),
        ("de", "1ä-b2", Some("ä-b")),
        ("de", "Ж1", None),
        ("ru", "aЖd", Some("Ж")),
        ("ko", "1a글!", Some("a글")),
        ("tr", "ı\u{307}", Some("ı")),
    ] {
        assert_eq!(
            stage(&*from_code(code).unwrap(), 0, token).as_deref(),
            left,
            "{code} {token}"
        );
    }
    assert_eq!(
        stage(&*from_code("ko").unwrap(), 2, "").as_deref(),
        Some("")
    );
}

#[test]
fn arabic_loses_a_mark_and_a_diacritic() {
    let arabic = from_code("ar").unwrap();
    for (token, left) in [
        (
            "\u{643}\u{64f}\u{62a}\u{64f}",
            Some("\u{643}\u{62a}\u{64f}"),
        ),
        ("\u{623}\u{622}x", Some("\u{627}\u{622}x")),
        ("\u{640}", None),
        ("", None),
        ("abc", Some("abc")),
        ("\u{649}\u{65b}", Some("\u{627}")),
        ("\u{65c}", Some("\u{65c}")),
    ] {
        assert_eq!(stage(&*arabic, 0, token).as_deref(), left, "{token:?}");
    }
}
