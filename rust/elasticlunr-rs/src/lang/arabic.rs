//! The stage of Arabic.

use super::common::Stages;
use crate::pipeline::FnWrapper;

pub(super) fn stages() -> Stages {
    vec![Box::new(FnWrapper("stemmer-ar".into(), stem))]
}

fn is_diacritic(character: char) -> bool {
    matches!(character, '\u{640}' | '\u{64b}'..='\u{65b}')
}

fn is_marked_alef(character: char) -> bool {
    matches!(
        character,
        '\u{622}' | '\u{623}' | '\u{625}' | '\u{649}' | '\u{671}'
    )
}

/// The token without its first diacritic, and with a plain alef instead of its first marked one.
fn stem(mut token: String) -> Option<String> {
    if let Some(at) = token.find(is_diacritic) {
        token.remove(at);
    }
    if let Some(at) = token.find(is_marked_alef) {
        token.remove(at);
        token.insert(at, '\u{627}');
    }
    Some(token).filter(|token| !token.is_empty())
}
