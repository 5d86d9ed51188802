//! What a page hands to the search of elasticlunr.js. No index has it in it: these types are for
//! programs that print the settings of a page next to the index.

use serde::{Deserialize, Serialize};
use std::collections::BTreeMap;

/// How one field is searched. What is `None` is not printed, and then the options of the whole
/// search hold.
#[derive(Clone, Copy, Debug, Default, Eq, PartialEq, Serialize, Deserialize)]
pub struct SearchOptionsField {
    /// What the scores of the field are multiplied by.
    #[serde(skip_serializing_if = "Option::is_none")]
    pub boost: Option<u8>,
    /// Whether a document needs one token of the query or each.
    #[serde(skip_serializing_if = "Option::is_none")]
    pub bool: Option<SearchBool>,
    /// Whether a token of the query also finds the longer tokens that begin with it.
    #[serde(skip_serializing_if = "Option::is_none")]
    pub expand: Option<bool>,
}

/// Whether a document needs one token of the query or each.
#[derive(Clone, Copy, Debug, Default, Eq, PartialEq, Serialize, Deserialize)]
#[serde(rename_all = "UPPERCASE")]
pub enum SearchBool {
    /// One.
    #[default]
    Or,
    /// Each.
    And,
}

/// How a query is searched for.
#[derive(Clone, Debug, Default, Eq, PartialEq, Serialize, Deserialize)]
pub struct SearchOptions {
    /// For the fields that don't say it themselves.
    pub bool: SearchBool,
    /// For the fields that don't say it themselves.
    pub expand: bool,
    /// The fields that are searched, by name.
    pub fields: BTreeMap<String, SearchOptionsField>,
}
