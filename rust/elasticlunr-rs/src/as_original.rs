//! The index that elasticlunr-rs 3.0.2 prints of the same calls, from what the library counts.
//!
//! To the library each call of `add_doc` is a document of its own, whose reference is the number of
//! the call. So its answer has how often each token stands in each value of each call. What the
//! original makes of these counts is made here:
//!
//! - A field has the tokens of its own value and of the values before it, with the counts of all of
//!   them.
//! - A document that is added again keeps the postings and lengths that the new one doesn't set.
//! - A frequency is the square root of a count.

use crate::document_store::DocumentStore;
use crate::index_text::{put_by_field, Printed};
use crate::input::{Input, Tokens};
use crate::json::Reader;
use crate::trie_text::{self, quoted};
use std::cmp::Ordering;
use std::collections::BTreeMap;

/// The calls of `add_doc`, and the documents of which the store is made.
pub(crate) struct Calls {
    made: Vec<Call>,
    store: DocumentStore,
}

struct Call {
    doc_ref: String,
    values: usize,
}

/// For each token, in order, the calls that have it, in order, and how often each has it.
type Counts = Vec<(String, Vec<(usize, u64)>)>;

/// What is read of an answer of the library.
#[derive(Default)]
struct Counted {
    stages: Vec<String>,
    tokens: BTreeMap<String, Counts>,
    lengths: Vec<(usize, String, usize)>,
}

/// The references of the calls in the order of their bytes, each once and as it is printed, and the
/// place of each call's one.
struct References {
    printed: Vec<String>,
    places: Vec<usize>,
}

impl Calls {
    pub fn new(save: bool) -> Self {
        Calls {
            made: Vec::new(),
            store: DocumentStore::new(save),
        }
    }

    /// Records a call, and adds its tokens to the input.
    pub fn add<S: AsRef<str>>(
        &mut self,
        input: &mut Input,
        given: Document<'_>,
        values: Vec<(S, Tokens)>,
    ) {
        let mut doc = BTreeMap::from([(given.ref_field.to_owned(), given.doc_ref.to_owned())]);
        let texts = given
            .fields
            .iter()
            .cloned()
            .zip(values.iter().map(|(text, _)| text.as_ref().to_owned()));
        doc.extend(texts);
        let tokens: Vec<(&str, Tokens)> =
            values.into_iter().map(|(_, tokens)| ("", tokens)).collect();
        // with ten digits, so that the library prints the calls in order
        input.add(&format!("{:010}", self.made.len()), &tokens);
        self.made.push(Call {
            doc_ref: given.doc_ref.to_owned(),
            values: tokens.len(),
        });
        self.store.add_doc(given.doc_ref, doc);
    }

    /// The original's text.
    pub fn text(&self, fields: &[String], ref_field: &str, lang: &str, answer: &str) -> String {
        let mut counted = Counted::of(answer);
        let references = self.references();
        let mut running = Counts::new();
        let mut tries = BTreeMap::new();
        for (place, field) in fields.iter().enumerate() {
            let mut text = Vec::new();
            let mut tokens = trie_text::Tokens::new(&mut text);
            if field != ref_field {
                let own = counted.tokens.remove(field).unwrap_or_default();
                running = merged(running, own, &|one, other| {
                    merged(one, other, &|one, other| one + other)
                });
                self.put_tokens(&mut tokens, &running, place, &references);
            }
            tokens.end();
            tries.insert(field.clone(), text);
        }
        let version = crate::ELASTICLUNR_VERSION;
        let printed = Printed {
            fields,
            stages: &counted.stages,
            ref_field,
            version,
            store: &self.store,
            lang,
        };
        let lengths = self.lengths(counted.lengths);
        printed.text(
            |text| put_by_field(text, &tries, |text, trie| text.extend_from_slice(trie)),
            &lengths,
        )
    }

    /// Writes the tokens of the calls that have a value at this place. Of the calls of one
    /// reference the last one counts.
    fn put_tokens(
        &self,
        tokens: &mut trie_text::Tokens<'_>,
        running: &Counts,
        place: usize,
        references: &References,
    ) {
        let mut found = Vec::new();
        for (token, counts) in running {
            found.clear();
            let with_value = counts
                .iter()
                .filter(|(call, _)| self.made[*call].values > place);
            found.extend(with_value.map(|(call, count)| (references.places[*call], *call, *count)));
            found.sort_unstable();
            found.reverse();
            found.dedup_by_key(|(reference, _, _)| *reference);
            let postings = found.iter().rev().map(|(reference, _, count)| {
                (&references.printed[*reference], (*count as f64).sqrt())
            });
            if postings.len() > 0 {
                tokens.put(token, postings);
            }
        }
    }

    fn references(&self) -> References {
        let mut sorted: Vec<&str> = self.made.iter().map(|call| call.doc_ref.as_str()).collect();
        sorted.sort_unstable();
        sorted.dedup();
        let place = |call: &Call| {
            sorted
                .binary_search(&call.doc_ref.as_str())
                .expect("each reference is there")
        };
        References {
            places: self.made.iter().map(place).collect(),
            printed: sorted.iter().map(|it| quoted(it)).collect(),
        }
    }

    /// The lengths by reference. Those of the calls come in order.
    fn lengths(
        &self,
        of_calls: Vec<(usize, String, usize)>,
    ) -> BTreeMap<String, BTreeMap<String, usize>> {
        let mut lengths: BTreeMap<String, BTreeMap<String, usize>> = BTreeMap::new();
        for (call, field, length) in of_calls {
            lengths
                .entry(self.made[call].doc_ref.clone())
                .or_default()
                .insert(field, length);
        }
        lengths
    }
}

/// What a call has in addition to its values.
pub(crate) struct Document<'d> {
    pub fields: &'d [String],
    pub ref_field: &'d str,
    pub doc_ref: &'d str,
}

/// Two lists in the order of their keys as one. Where both have a key, `both` makes one value of
/// the two.
fn merged<K: Ord, V>(
    one: Vec<(K, V)>,
    other: Vec<(K, V)>,
    both: &impl Fn(V, V) -> V,
) -> Vec<(K, V)> {
    let mut out = Vec::with_capacity(one.len().max(other.len()));
    let (mut one, mut other) = (one.into_iter().peekable(), other.into_iter().peekable());
    loop {
        let order = match (one.peek(), other.peek()) {
            (Some((mine, _)), Some((theirs, _))) => mine.cmp(theirs),
            (Some(_), None) => Ordering::Less,
            (None, Some(_)) => Ordering::Greater,
            (None, None) => return out,
        };
        match order {
            Ordering::Less => out.extend(one.next()),
            Ordering::Greater => out.extend(other.next()),
            Ordering::Equal => {
                let pair = one.next().zip(other.next());
                out.extend(pair.map(|((key, mine), (_, theirs))| (key, both(mine, theirs))));
            }
        }
    }
}

impl Counted {
    fn of(answer: &str) -> Self {
        let mut counted = Counted::default();
        let mut reader = Reader::new(answer);
        each_member(&mut reader, |reader, key| match key {
            "documentStore" => each_member(reader, |reader, key| match key {
                "docInfo" => each_member(reader, |reader, call| {
                    counted.read_lengths(reader, number(call))
                }),
                _ => reader.skip(),
            }),
            "index" => each_member(reader, |reader, field| {
                let field = field.to_owned();
                each_member(reader, |reader, _| {
                    counted.tokens.insert(field.clone(), counts_of_trie(reader));
                });
            }),
            "pipeline" => counted.read_stages(reader),
            _ => reader.skip(),
        });
        counted
    }

    fn read_lengths(&mut self, reader: &mut Reader<'_>, call: usize) {
        each_member(reader, |reader, field| {
            self.lengths
                .push((call, field.to_owned(), number(reader.word())))
        });
    }

    fn read_stages(&mut self, reader: &mut Reader<'_>) {
        let mut goes_on = reader.opens(b']');
        while goes_on {
            self.stages.push(reader.string().into_owned());
            goes_on = reader.goes_on();
        }
    }
}

/// Reads the object that comes next. `read` gets each key, and reads the value.
fn each_member<'t>(reader: &mut Reader<'t>, mut read: impl FnMut(&mut Reader<'t>, &str)) {
    let mut goes_on = reader.opens(b'}');
    while goes_on {
        let key = reader.key();
        read(reader, &key);
        goes_on = reader.goes_on();
    }
}

/// Reads the node that comes next, and all below it, by one loop.
fn counts_of_trie(reader: &mut Reader<'_>) -> Counts {
    let mut counts = Counts::new();
    let mut token = String::new();
    let mut above = Vec::new();
    reader.opens(b'}');
    loop {
        let key = reader.key();
        match &*key {
            "df" => reader.skip(),
            "docs" => read_postings(reader, &token, &mut counts),
            character => {
                above.push(token.len());
                token.push_str(character);
                reader.opens(b'}');
                continue;
            }
        }
        while !reader.goes_on() {
            match above.pop() {
                Some(length) => token.truncate(length),
                None => {
                    // a node has some of its children before its postings
                    counts.sort();
                    return counts;
                }
            }
        }
    }
}

fn read_postings(reader: &mut Reader<'_>, token: &str, counts: &mut Counts) {
    let mut found = Vec::new();
    each_member(reader, |reader, call| {
        each_member(reader, |reader, _| {
            found.push((number(call), count(reader.word())))
        });
    });
    if !found.is_empty() {
        counts.push((token.to_owned(), found));
    }
}

/// The count whose root is this number of millionths, rounded down.
fn count(frequency: &str) -> u64 {
    let root = number(frequency) as f64 / 1e6;
    (root * root).round() as u64
}

fn number(text: &str) -> usize {
    text.parse().expect("the library prints a whole number")
}
