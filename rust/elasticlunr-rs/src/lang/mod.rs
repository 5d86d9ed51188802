//! The languages. A language is a name, a code, a tokenizer and a pipeline.
//!
//! The proved library makes the tokens of a built-in language. `tokenize` and `make_pipeline` of
//! these do the same here, for programs that call them, or build a language of one. With the feature
//! `rust-stemmers` fourteen languages have Snowball's stemmers. The library has none of these, so
//! the tokens of such a language are made here, as those of a custom one.

#[cfg(feature = "ar")]
mod arabic;
pub mod common;
mod english;
#[allow(dead_code)] // without the languages that have a stemmer
mod snowball;

use crate::pipeline::Pipeline;
use built_in::BuiltIn;

/// Makes tokens of texts.
pub trait Language {
    /// The name in English, with a capital.
    fn name(&self) -> String;

    /// The code of two letters.
    fn code(&self) -> String;

    /// The words of a text, before the pipeline.
    fn tokenize(&self, text: &str) -> Vec<String>;

    /// The stages through which each word goes.
    fn make_pipeline(&self) -> Pipeline;

    /// Whether the library has the language. No other crate can say so.
    #[doc(hidden)]
    fn built_in(&self) -> Option<BuiltIn> {
        None
    }
}

mod built_in {
    /// Says that the library has a language.
    pub struct BuiltIn(pub(super) ());
}

/// The words of a text: what stands between white space and hyphens, in lower case.
pub fn tokenize_whitespace(text: &str) -> Vec<String> {
    let runs = text.split(|character: char| character == '-' || character.is_whitespace());
    runs.filter(|run| !run.is_empty())
        .map(str::to_lowercase)
        .collect()
}

/// The pipeline of a language that keeps the characters of some scripts and drops stop words.
#[allow(unused_macros)] // without the features of these languages
macro_rules! scripts {
    ($code:literal, $class:literal) => {
        common::of_class(
            $code,
            $class,
            include_str!(concat!("stop_words/", $code, ".txt")),
        )
    };
}

/// The pipeline of such a language that has a Snowball stemmer.
#[allow(unused_macros)] // without the features of these languages
macro_rules! stemmed {
    ($code:literal, $class:literal) => {
        common::and_stemmer(
            scripts!($code, $class),
            $code,
            include_str!(concat!("tables/", $code, ".txt")),
        )
    };
}

/// The types of the languages, and the look-ups. Each row has the condition under which the
/// language is there, its name, its code, and its pipeline.
macro_rules! languages {
    ($($([$condition:meta])? $name:ident $code:literal $pipeline:expr;)+) => {
        $(
            #[doc = concat!("The language `", $code, "`.")]
            $(#[cfg($condition)])?
            #[derive(Clone, Default)]
            pub struct $name {}

            $(#[cfg($condition)])?
            impl $name {
                /// The language.
                pub fn new() -> Self {
                    $name {}
                }
            }

            $(#[cfg($condition)])?
            impl Language for $name {
                fn name(&self) -> String {
                    stringify!($name).into()
                }

                fn code(&self) -> String {
                    $code.into()
                }

                fn tokenize(&self, text: &str) -> Vec<String> {
                    tokenize_whitespace(text)
                }

                fn make_pipeline(&self) -> Pipeline {
                    Pipeline { queue: $pipeline }
                }

                fn built_in(&self) -> Option<BuiltIn> {
                    Some(BuiltIn(())).filter(|_| !common::is_stemmed($code))
                }
            }
        )+

        /// The built-in languages that the features of this crate choose.
        pub fn languages() -> Vec<Box<dyn Language>> {
            vec![$($(#[cfg($condition)])? Box::new($name {}),)+]
        }
    };
}

languages! {
    English "en" english::stages();
    [feature = "ar"] Arabic "ar" arabic::stages();
    [feature = "da"] Danish "da" stemmed!("da", r"\p{Latin}");
    [feature = "du"] Dutch "du" stemmed!("du", r"\p{Latin}");
    [feature = "fi"] Finnish "fi" stemmed!("fi", r"\p{Latin}");
    [feature = "fr"] French "fr" stemmed!("fr", r"\p{Latin}");
    [feature = "de"] German "de" stemmed!("de", r"\p{Latin}");
    [feature = "hu"] Hungarian "hu" stemmed!("hu", r"\p{Latin}");
    [feature = "it"] Italian "it" stemmed!("it", r"\p{Latin}");
    [feature = "ko"] Korean "ko"
        common::and_keeper(scripts!("ko", r"\p{Latin}\p{Hangul}"), "stemmer-ko");
    [feature = "no"] Norwegian "no" stemmed!("no", r"\p{Latin}");
    [feature = "pt"] Portuguese "pt" stemmed!("pt", r"\p{Latin}");
    [feature = "ro"] Romanian "ro" stemmed!("ro", r"\p{Latin}");
    [feature = "ru"] Russian "ru" stemmed!("ru", r"\p{Cyrillic}");
    [feature = "es"] Spanish "es" stemmed!("es", r"\p{Latin}");
    [feature = "sv"] Swedish "sv" stemmed!("sv", r"\p{Latin}");
    [feature = "tr"] Turkish "tr" stemmed!("tr", r"\p{Latin}");
}

/// The built-in language of a code, in capitals or not. Dutch has the code `du`.
pub fn from_code(code: &str) -> Option<Box<dyn Language>> {
    languages()
        .into_iter()
        .find(|language| language.code().eq_ignore_ascii_case(code))
}

/// The built-in language of a name, which begins with a capital.
pub fn from_name(name: &str) -> Option<Box<dyn Language>> {
    languages()
        .into_iter()
        .find(|language| language.name() == name)
}
