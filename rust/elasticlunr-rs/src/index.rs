//! The index: it collects documents, and has the library make the text.

use crate::as_original::{Calls, Document};
use crate::builder::{IndexBuilder, Tokenizer};
use crate::document_store::DocumentStore;
use crate::index_text::{text_of_tries, Printed};
use crate::input::{Input, Tokens};
use crate::inverted_index::InvertedIndex;
use crate::json::{indented, Json};
use crate::lang::{from_name, Language};
use crate::library::index_documents;
use crate::pipeline::Pipeline;
use crate::AS_ORIGINAL;
use serde::de::{Deserialize, Deserializer, Error};
use serde::ser::{Serialize, Serializer};
use std::collections::BTreeMap;

/// A search index that elasticlunr.js loads.
///
/// ```
/// use elasticlunr::Index;
///
/// let mut index = Index::new(&["title", "text"]);
/// index.add_doc("guide/install.html", &["Installing", "Copy the folder into your site."]);
/// assert!(index.to_json().contains("guide/install.html"));
/// ```
pub struct Index {
    fields: Vec<String>,
    field_tokenizers: Vec<Option<Tokenizer>>,
    ref_field: String,
    /// None for a built-in language: the library has its stages.
    pipeline: Option<Pipeline>,
    lang: Box<dyn Language>,
    contents: Contents,
}

enum Contents {
    /// Documents for the library, and with `as-original` what the original makes of their calls.
    Added(Input, Calls),
    /// An index that was deserialized.
    Read {
        version: String,
        tries: BTreeMap<String, InvertedIndex>,
        store: DocumentStore,
    },
}

impl Index {
    /// An English index with these fields.
    ///
    /// # Panics
    ///
    /// Where two fields have the same name.
    pub fn new<I>(fields: I) -> Self
    where
        I: IntoIterator,
        I::Item: AsRef<str>,
    {
        IndexBuilder::new().add_fields(fields).build()
    }

    /// An index with these fields in a language.
    ///
    /// ```
    /// use elasticlunr::{lang::English, Index};
    ///
    /// let index = Index::with_language(Box::new(English::new()), &["title", "body"]);
    /// assert_eq!(index.get_fields(), ["title", "body"]);
    /// ```
    ///
    /// # Panics
    ///
    /// Where two fields have the same name.
    pub fn with_language<I>(lang: Box<dyn Language>, fields: I) -> Self
    where
        I: IntoIterator,
        I::Item: AsRef<str>,
    {
        IndexBuilder::with_language(lang).add_fields(fields).build()
    }

    pub(crate) fn of(builder: IndexBuilder) -> Self {
        let IndexBuilder {
            save,
            fields,
            field_tokenizers,
            ref_field,
            language: lang,
        } = builder;
        let pipeline = match lang.built_in() {
            Some(_) => None,
            None => Some(lang.make_pipeline()),
        };
        let input = Input::new(
            &*lang,
            pipeline.as_ref(),
            &ref_field,
            save && !AS_ORIGINAL,
            &fields,
        );
        let contents = Contents::Added(input, Calls::new(save));
        Index {
            fields,
            field_tokenizers,
            ref_field,
            pipeline,
            lang,
            contents,
        }
    }

    /// Adds a document: its reference, and its values in the order of the fields. A document may
    /// have fewer values than there are fields.
    ///
    /// A document of the same reference is replaced. With the feature `as-original`, what it had
    /// and the new one doesn't have stays.
    ///
    /// # Panics
    ///
    /// Where there are more values than fields; no document is added then. Also where the index was
    /// deserialized and there is a value.
    pub fn add_doc<I>(&mut self, doc_ref: &str, data: I)
    where
        I: IntoIterator,
        I::Item: AsRef<str>,
    {
        let mut values = Vec::new();
        for (place, value) in data.into_iter().enumerate() {
            let tokens = self.tokens_of(place, value.as_ref());
            values.push((value, tokens));
        }
        let given = Document {
            fields: &self.fields,
            ref_field: &self.ref_field,
            doc_ref,
        };
        match &mut self.contents {
            Contents::Added(input, calls) if AS_ORIGINAL => calls.add(input, given, values),
            Contents::Added(input, _) => input.add(doc_ref, &values),
            Contents::Read { store, .. } => store.add_doc(
                doc_ref,
                BTreeMap::from([(self.ref_field.clone(), doc_ref.to_owned())]),
            ),
        }
    }

    fn tokens_of(&self, place: usize, value: &str) -> Tokens {
        assert!(
            matches!(self.contents, Contents::Added(..)),
            "an index that was deserialized takes no values"
        );
        assert!(
            place < self.fields.len(),
            "a document has more values than there are fields"
        );
        if self.fields[place] == self.ref_field {
            return Tokens::AsTheyAre(Vec::new());
        }
        let made = match &self.field_tokenizers[place] {
            Some(tokenizer) => tokenizer(value),
            None if self.pipeline.is_none() && !AS_ORIGINAL => return Tokens::OfText,
            None => self.lang.tokenize(value),
        };
        match &self.pipeline {
            Some(pipeline) => Tokens::AsTheyAre(pipeline.run(made)),
            None => Tokens::ThroughPipeline(made),
        }
    }

    /// The names of the fields, in order.
    pub fn get_fields(&self) -> &[String] {
        &self.fields
    }

    /// The index as JSON with a line for each member.
    pub fn to_json_pretty(&self) -> String {
        indented(&self.to_json())
    }

    /// The index as JSON without spaces.
    pub fn to_json(&self) -> String {
        match &self.contents {
            Contents::Added(input, calls) => {
                let answer = index_documents(input.bytes());
                if AS_ORIGINAL {
                    return calls.text(&self.fields, &self.ref_field, &self.lang.name(), &answer);
                }
                answer
            }
            Contents::Read {
                version,
                tries,
                store,
            } => {
                let (fields, ref_field, lang) = (&self.fields, &self.ref_field, &self.lang.name());
                text_of_tries(
                    &Printed {
                        fields,
                        stages: &[],
                        ref_field,
                        version,
                        store,
                        lang,
                    },
                    tries,
                )
            }
        }
    }
}

/// What [`Index::to_json`] prints, as a value of the serializer's own form. A token of more than
/// some 1,000 characters is an error: see [`DEEPEST`](crate::DEEPEST).
impl Serialize for Index {
    fn serialize<S: Serializer>(&self, serializer: S) -> Result<S::Ok, S::Error> {
        Json::new(&self.to_json()).serialize(serializer)
    }
}

/// An index that is read back can be printed again. Its pipeline is empty, and no value can be
/// added to it.
impl<'de> Deserialize<'de> for Index {
    fn deserialize<D: Deserializer<'de>>(deserializer: D) -> Result<Self, D::Error> {
        #[derive(serde::Deserialize)]
        #[serde(rename_all = "camelCase")]
        struct Whole {
            fields: Vec<String>,
            pipeline: Pipeline,
            #[serde(rename = "ref")]
            ref_field: String,
            version: String,
            index: BTreeMap<String, InvertedIndex>,
            document_store: DocumentStore,
            lang: String,
        }
        let whole = Whole::deserialize(deserializer)?;
        let lang = from_name(&whole.lang)
            .ok_or_else(|| Error::custom(format!("no language is called {:?}", whole.lang)))?;
        Ok(Index {
            fields: whole.fields,
            field_tokenizers: Vec::new(),
            ref_field: whole.ref_field,
            pipeline: Some(whole.pipeline),
            lang,
            contents: Contents::Read {
                version: whole.version,
                tries: whole.index,
                store: whole.document_store,
            },
        })
    }
}
