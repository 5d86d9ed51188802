//! The stages of English. The stem is that of the definition: seven steps, each of which cuts or
//! changes the end of a word.

use super::common::{Stages, StopWordFilter};
use crate::pipeline::FnWrapper;

pub(super) fn stages() -> Stages {
    vec![
        Box::new(FnWrapper("trimmer".into(), trim)),
        Box::new(StopWordFilter::listed(
            "stopWordFilter",
            include_str!("stop_words/en.txt"),
        )),
        Box::new(FnWrapper("stemmer".into(), |token| Some(stem(token)))),
    ]
}

/// The token from its first to its last letter, digit or `_` of ASCII. It may be empty.
fn trim(token: String) -> Option<String> {
    let left = token
        .trim_matches(|character: char| !character.is_ascii_alphanumeric() && character != '_');
    Some(left.to_owned())
}

const STEP_2: &[(&str, &str)] = &[
    ("ational", "ate"),
    ("ization", "ize"),
    ("iveness", "ive"),
    ("fulness", "ful"),
    ("ousness", "ous"),
    ("tional", "tion"),
    ("biliti", "ble"),
    ("entli", "ent"),
    ("ousli", "ous"),
    ("ation", "ate"),
    ("alism", "al"),
    ("aliti", "al"),
    ("iviti", "ive"),
    ("enci", "ence"),
    ("anci", "ance"),
    ("izer", "ize"),
    ("alli", "al"),
    ("ator", "ate"),
    ("logi", "log"),
    ("bli", "ble"),
    ("eli", "e"),
];
const STEP_3: &[(&str, &str)] = &[
    ("icate", "ic"),
    ("ative", ""),
    ("alize", "al"),
    ("iciti", "ic"),
    ("ical", "ic"),
    ("ness", ""),
    ("ful", ""),
];
const STEP_4: &[&str] = &[
    "ement", "ance", "ence", "able", "ible", "ment", "ant", "ent", "ism", "ate", "iti", "ous",
    "ive", "ize", "al", "er", "ic", "ou",
];

/// The stem of a word. A first `y` is a consonant to the steps.
fn stem(mut word: String) -> String {
    if word.len() < 3 {
        return word;
    }
    let begins_with_y = word.starts_with('y');
    if begins_with_y {
        word.replace_range(..1, "Y");
    }
    for step in [step_1a, step_1b, step_1c, step_2, step_3, step_4, step_5] {
        step(&mut word);
    }
    if begins_with_y {
        word.replace_range(..1, "y");
    }
    word
}

/// Whether a text can be a stem: it is not empty, and has no line feed.
fn is_stem(text: &str) -> bool {
    !text.is_empty() && !text.contains('\n')
}

/// What stands before an ending, where that is a stem.
fn before<'w>(word: &'w str, ending: &str) -> Option<&'w str> {
    word.strip_suffix(ending).filter(|stem| is_stem(stem))
}

fn step_1a(word: &mut String) {
    if before(word, "sses")
        .or_else(|| before(word, "ies"))
        .is_some()
    {
        word.truncate(word.len() - 2);
    }
    let mut characters = word.strip_suffix('s').unwrap_or_default().chars();
    let last = characters.next_back();
    if last.map_or(false, |last| last != 's') && is_stem(characters.as_str()) {
        word.pop();
    }
}

fn step_1b(word: &mut String) {
    if let Some(stem) = before(word, "eed") {
        if Blocks::of(stem).is_m_above_0() {
            word.pop();
        }
        return;
    }
    let stem = before(word, "ed").or_else(|| before(word, "ing"));
    if let Some(stem) = stem.filter(|stem| Blocks::of(stem).has_vowel()) {
        word.truncate(stem.len());
        mend(word);
    }
}

/// What a word needs after it lost `ed` or `ing`.
fn mend(word: &mut String) {
    let mut characters = word.chars().rev();
    let (last, second) = (characters.next(), characters.next());
    if ["at", "bl", "iz"]
        .iter()
        .any(|ending| word.ends_with(ending))
    {
        word.push('e');
    } else if last == second && last.map_or(false, |last| !"aeiouylsz".contains(last)) {
        word.pop();
    } else if is_short(word) {
        word.push('e');
    }
}

fn step_1c(word: &mut String) {
    let mut characters = word.strip_suffix('y').unwrap_or_default().chars();
    let last = characters.next_back();
    if last.map_or(false, |last| !is_vowel(last)) && is_stem(characters.as_str()) {
        word.pop();
        word.push('i');
    }
}

fn step_2(word: &mut String) {
    replace_ending(word, STEP_2);
}

fn step_3(word: &mut String) {
    replace_ending(word, STEP_3);
}

/// Replaces the longest of the endings, which stand in falling order of length.
fn replace_ending(word: &mut String, endings: &[(&str, &str)]) {
    let cut = endings
        .iter()
        .find_map(|(ending, new)| before(word, ending).map(|stem| (stem, new)));
    if let Some((stem, new)) = cut.filter(|(stem, _)| Blocks::of(stem).is_m_above_0()) {
        word.truncate(stem.len());
        word.push_str(new);
    }
}

fn step_4(word: &mut String) {
    let ion = || {
        before(word, "sion")
            .or_else(|| before(word, "tion"))
            .map(|_| &word[..word.len() - "ion".len()])
    };
    let stem = STEP_4
        .iter()
        .find_map(|ending| before(word, ending))
        .or_else(ion);
    if let Some(stem) = stem.filter(|stem| Blocks::of(stem).is_m_above_1()) {
        word.truncate(stem.len());
    }
}

fn step_5(word: &mut String) {
    if let Some(stem) = before(word, "e") {
        let blocks = Blocks::of(stem);
        if blocks.is_m_above_1() || (blocks.is_m_1() && !is_short(stem)) {
            word.pop();
        }
    }
    if word.ends_with("ll") && Blocks::of(word).is_m_above_1() {
        word.pop();
    }
}

fn is_vowel(character: char) -> bool {
    "aeiou".contains(character)
}

fn is_vowel_or_y(character: char) -> bool {
    "aeiouy".contains(character)
}

/// Whether a word is consonants, a vowel, and a consonant other than `w`, `x` and `y`.
fn is_short(word: &str) -> bool {
    let mut characters = word.chars().rev();
    let (last, vowel) = (characters.next(), characters.next());
    let mut onset = characters.rev();
    last.map_or(false, |last| !"aeiouwxy".contains(last))
        && vowel.map_or(false, is_vowel_or_y)
        && onset.next().map_or(false, |first| !is_vowel(first))
        && !onset.any(is_vowel_or_y)
}

/// In which blocks the walks through a word may be. The blocks are an onset of consonants, which
/// may be missing, and then in turn vowels, consonants, vowels and consonants. The first letter of
/// vowels is one of `aeiouy`, and the others are of `aeiou`; the first of consonants is none of
/// `aeiou`, and the others are none of `aeiouy`.
struct Blocks {
    /// A bit for each block in which a walk may end.
    end: u8,
    /// A bit for each block that a walk may reach.
    reached: u8,
}

impl Blocks {
    const START: u8 = 1;
    const ONSET: u8 = 1 << 1;
    const VOWELS: u8 = 1 << 2;
    const CONSONANTS: u8 = 1 << 3;
    const VOWELS_2: u8 = 1 << 4;
    const CONSONANTS_2: u8 = 1 << 5;

    fn of(word: &str) -> Self {
        let mut blocks = Blocks {
            end: Self::START,
            reached: Self::START,
        };
        for character in word.chars() {
            blocks.end = Self::next(blocks.end, character);
            blocks.reached |= blocks.end;
        }
        blocks
    }

    fn next(at: u8, character: char) -> u8 {
        let vowels = Self::VOWELS | Self::VOWELS_2;
        let consonants = Self::ONSET | Self::CONSONANTS | Self::CONSONANTS_2;
        let mut next = 0;
        if is_vowel(character) {
            next |= at & vowels;
        } else {
            next |= (at & (Self::START | vowels)) << 1;
        }
        if is_vowel_or_y(character) {
            next |= (at & (Self::ONSET | Self::CONSONANTS)) << 1 | (at & Self::START) << 2;
        } else {
            next |= at & consonants;
        }
        next
    }

    fn is_m_above_0(&self) -> bool {
        self.reached & Self::CONSONANTS != 0
    }

    fn is_m_above_1(&self) -> bool {
        self.reached & Self::CONSONANTS_2 != 0
    }

    fn is_m_1(&self) -> bool {
        self.end & (Self::CONSONANTS | Self::VOWELS_2) != 0
    }

    fn has_vowel(&self) -> bool {
        self.reached & Self::VOWELS != 0
    }
}
