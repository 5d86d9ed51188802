//! Indexes sites as a site builder does: reads a job on each line of standard input, and prints its
//! index on a line.
//!
//! A job is a JSON object: `fields`, `docs`, each a reference and its values, and optionally
//! `lang`, `ref`, `save` and `pretty`.
use elasticlunr::lang::from_name;
use elasticlunr::IndexBuilder;
use serde_json::Value;
use std::io::{self, BufRead, Write};

fn texts(value: &Value) -> Vec<&str> {
    let items = value.as_array().expect("a list of texts");
    items
        .iter()
        .map(|item| item.as_str().expect("a text"))
        .collect()
}

fn printed(job: &Value) -> String {
    let name = job.get("lang").and_then(Value::as_str).unwrap_or("English");
    let language = from_name(name).expect("a language");
    let mut builder = IndexBuilder::with_language(language).add_fields(texts(&job["fields"]));
    if let Some(ref_field) = job.get("ref").and_then(Value::as_str) {
        builder = builder.set_ref(ref_field);
    }
    if let Some(save) = job.get("save").and_then(Value::as_bool) {
        builder = builder.save_docs(save);
    }
    let mut index = builder.build();
    for doc in job["docs"].as_array().expect("a list of documents") {
        let doc = texts(doc);
        index.add_doc(doc[0], &doc[1..]);
    }
    match job.get("pretty").and_then(Value::as_bool) {
        Some(true) => serde_json::to_string(&index.to_json_pretty()).expect("a text"),
        _ => index.to_json(),
    }
}

fn main() -> io::Result<()> {
    let mut out = io::BufWriter::new(io::stdout().lock());
    for line in io::stdin().lock().lines() {
        let job = serde_json::from_str(&line?).expect("a job");
        writeln!(out, "{}", printed(&job))?;
    }
    out.flush()
}
