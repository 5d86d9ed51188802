//! The builder of an index.

use crate::index::Index;
use crate::lang::{English, Language};

pub(crate) type Tokenizer = Box<dyn Fn(&str) -> Vec<String>>;

/// The settings of an index that is not there yet.
///
/// ```
/// use elasticlunr::IndexBuilder;
///
/// let builder = IndexBuilder::new().add_fields(&["title", "summary"]).set_ref("address");
/// let mut index = builder.save_docs(false).build();
/// index.add_doc("guide/install.html", &["Installing", "What to copy, and where."]);
/// ```
pub struct IndexBuilder {
    pub(crate) save: bool,
    pub(crate) fields: Vec<String>,
    pub(crate) field_tokenizers: Vec<Option<Tokenizer>>,
    pub(crate) ref_field: String,
    pub(crate) language: Box<dyn Language>,
}

impl Default for IndexBuilder {
    fn default() -> Self {
        Self::with_language(Box::new(English::new()))
    }
}

impl IndexBuilder {
    /// English, no fields, the reference field `id`, and values that are stored.
    pub fn new() -> Self {
        Self::default()
    }

    /// The same in another language.
    pub fn with_language(language: Box<dyn Language>) -> Self {
        IndexBuilder {
            save: true,
            fields: Vec::new(),
            field_tokenizers: Vec::new(),
            ref_field: "id".into(),
            language,
        }
    }

    /// Sets whether the index has the values of its documents, for a page that shows them.
    pub fn save_docs(mut self, save: bool) -> Self {
        self.save = save;
        self
    }

    /// Adds a field.
    ///
    /// # Panics
    ///
    /// Where there is a field of this name.
    pub fn add_field(self, field: &str) -> Self {
        self.with_field(field, None)
    }

    /// Adds a field whose tokens this function makes. They go through the stages of the language,
    /// too.
    ///
    /// # Panics
    ///
    /// Where there is a field of this name.
    pub fn add_field_with_tokenizer(self, field: &str, tokenizer: Tokenizer) -> Self {
        self.with_field(field, Some(tokenizer))
    }

    /// Adds fields, in order.
    ///
    /// # Panics
    ///
    /// Where two fields have the same name.
    pub fn add_fields<I>(self, fields: I) -> Self
    where
        I: IntoIterator,
        I::Item: AsRef<str>,
    {
        fields
            .into_iter()
            .fold(self, |builder, field| builder.add_field(field.as_ref()))
    }

    /// Sets the name under which a stored document has its reference.
    pub fn set_ref(mut self, ref_field: &str) -> Self {
        self.ref_field = ref_field.into();
        self
    }

    /// Makes an index without documents.
    pub fn build(self) -> Index {
        Index::of(self)
    }

    fn with_field(mut self, field: &str, tokenizer: Option<Tokenizer>) -> Self {
        assert!(
            !self.fields.iter().any(|other| other == field),
            "two fields are called {field:?}"
        );
        self.fields.push(field.to_owned());
        self.field_tokenizers.push(tokenizer);
        self
    }
}
