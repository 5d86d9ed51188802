//! The original crate on the jobs of this project: prints its index of the job on standard input,
//! or, with the word `lines`, of the job on each line.
//!
//! Only what the crate itself does counts: a document is added as it comes, and there are no
//! removals. The keys of a job that it knows are `fields`, `docs` and `lang`.
use elasticlunr::lang::common::{RegexTrimmer, StopWordFilter};
use elasticlunr::lang::{from_name, tokenize_whitespace};
use elasticlunr::{Index, Language, Pipeline};
use serde_json::Value;
use std::io::{self, BufRead, Read, Write};

/// German without its Snowball stemmer, which Debian's package of the crate lacks.
struct German;

/// The crate's own list, as the project keeps it for its tests.
const STOP_WORDS: &str = include_str!(env!("STOP_WORDS"));

impl Language for German {
    fn name(&self) -> String {
        "German".to_string()
    }

    fn code(&self) -> String {
        "de".to_string()
    }

    fn tokenize(&self, text: &str) -> Vec<String> {
        tokenize_whitespace(text)
    }

    fn make_pipeline(&self) -> Pipeline {
        let words: Vec<String> = serde_json::from_str(STOP_WORDS).expect("a list of words");
        let words: Vec<&str> = words.iter().map(String::as_str).collect();
        Pipeline {
            queue: vec![
                Box::new(RegexTrimmer::new("trimmer-de", r"\p{Latin}")),
                Box::new(StopWordFilter::new("stopWordFilter-de", &words)),
            ],
        }
    }
}

fn language(name: &str) -> Box<dyn Language> {
    if name == "German" {
        return Box::new(German);
    }
    from_name(name).expect("a language of the package")
}

fn texts(value: &Value) -> Vec<&str> {
    let items = value.as_array().expect("a list of texts");
    items.iter().map(|item| item.as_str().expect("a text")).collect()
}

fn printed(job: &str) -> String {
    let job: Value = serde_json::from_str(job).expect("a job");
    let name = job.get("lang").and_then(Value::as_str).unwrap_or("English");
    let mut index = Index::with_language(language(name), texts(&job["fields"]));
    for doc in job["docs"].as_array().expect("a list of documents") {
        let doc = texts(doc);
        index.add_doc(doc[0], &doc[1..]);
    }
    index.to_json()
}

fn main() -> io::Result<()> {
    let mut out = io::BufWriter::new(io::stdout().lock());
    if std::env::args().nth(1).as_deref() == Some("lines") {
        for line in io::stdin().lock().lines() {
            writeln!(out, "{}", printed(&line?))?;
        }
    } else {
        let mut job = String::new();
        io::stdin().read_to_string(&mut job)?;
        writeln!(out, "{}", printed(&job))?;
    }
    out.flush()
}
