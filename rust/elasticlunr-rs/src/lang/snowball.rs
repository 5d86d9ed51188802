//! The stems of Snowball, by tables.
//!
//! The tables are those of the Snowball before 2.0, of which elasticlunr-rs has the stems. A table
//! is a line with the numbers of the step before, of the main step and of the marks, and a line for
//! each step. A step takes the beginning of a text, and gives what it makes of it, or nothing where
//! it doesn't apply. A step that changed the text always applies, so nothing is undone: the proved
//! library reads the same tables, and refuses one that isn't so.
use crate::pipeline::PipelineFn;
use std::collections::BTreeMap;

/// How deep steps are nested: what lies deeper changes nothing.
const DEEPEST: usize = 400;

/// A class of characters: those that are listed, or all others.
struct Class {
    listed: Vec<char>,
    is_of_others: bool,
}

impl Class {
    fn of(word: &str) -> Self {
        let others = word.strip_prefix('^');
        Class {
            listed: others.unwrap_or(word).chars().collect(),
            is_of_others: others.is_some(),
        }
    }

    fn has(&self, character: char) -> bool {
        self.listed.contains(&character) != self.is_of_others
    }
}

/// Suffixes with the numbers of their steps, as a tree that begins with the last characters.
#[derive(Default)]
struct Suffixes {
    step: Option<usize>,
    longer: BTreeMap<char, Suffixes>,
}

impl Suffixes {
    fn add(&mut self, suffix: &str, step: usize) {
        let node = suffix.chars().rev().fold(self, |node, character| {
            node.longer.entry(character).or_default()
        });
        node.step.get_or_insert(step);
    }

    /// The step of the longest suffix of a text, and how long the text is before it.
    fn longest(&self, text: &[char]) -> Option<(usize, usize)> {
        let mut node = self;
        let mut found = node.step.map(|step| (step, text.len()));
        for (before, character) in text.iter().enumerate().rev() {
            match node.longer.get(character) {
                Some(next) => node = next,
                None => break,
            }
            found = node.step.map(|step| (step, before)).or(found);
        }
        found
    }
}

/// A step. Numbers are those of other steps, and of marks.
enum Step {
    /// These characters come behind the text.
    Add(Vec<char>),
    /// Applies where the text reaches the mark.
    Reaches(usize),
    /// Cuts a character of the class.
    One(Class),
    /// Cuts one of two equal characters of the class.
    Twin(Class),
    /// Cuts all characters of the class.
    Run(Class),
    /// Cuts the longest of the suffixes behind the mark, and goes on with its step.
    Cut(usize, Suffixes),
    /// The one step, and the other one with what it made.
    Both(usize, usize),
    /// The one step, or the other one where it doesn't apply.
    Either(usize, usize),
    /// Applies where the step doesn't.
    Not(usize),
    /// The other step with what the one leaves, and then what that took off.
    Keep(usize, usize),
    /// Types a text anew, and tries the step after each character, where the text has one of the
    /// class.
    Sweep(Class, usize),
}

impl Step {
    fn of(line: &str) -> Option<Self> {
        let words: Vec<&str> = line.get(4..)?.split(' ').collect();
        let first = words[0];
        let number = |place: usize| words.get(place)?.parse::<usize>().ok();
        Some(match line.chars().next()? {
            '+' => Step::Add(first.chars().collect()),
            '@' => Step::Reaches(number(0)?),
            '.' => Step::One(Class::of(first)),
            ':' => Step::Twin(Class::of(first)),
            '*' => Step::Run(Class::of(first)),
            '-' => Step::Cut(number(0)?, suffixes_of(&words[1..])?),
            '&' => Step::Both(number(0)?, number(1)?),
            '|' => Step::Either(number(0)?, number(1)?),
            '!' => Step::Not(number(0)?),
            '=' => Step::Keep(number(0)?, number(1)?),
            '~' => Step::Sweep(Class::of(first), number(1)?),
            _ => return None,
        })
    }
}

/// The suffixes of a line, each behind its step.
fn suffixes_of(words: &[&str]) -> Option<Suffixes> {
    let mut suffixes = Suffixes::default();
    for row in words.chunks(2) {
        suffixes.add(row.get(1)?, row[0].parse().ok()?);
    }
    Some(suffixes)
}

/// A table that was read.
struct Table {
    steps: Vec<Step>,
    before: usize,
    main: usize,
    /// The step that finds each mark in the reversed word, and the least place of the mark.
    marks: Vec<(usize, usize)>,
}

impl Table {
    fn of(text: &str) -> Option<Self> {
        let mut lines = text.lines();
        let numbers: Result<Vec<usize>, _> = lines.next()?.split(' ').map(str::parse).collect();
        let numbers = numbers.ok()?;
        Some(Table {
            steps: lines.map(Step::of).collect::<Option<_>>()?,
            before: *numbers.first()?,
            main: *numbers.get(1)?,
            marks: numbers[2..]
                .chunks_exact(2)
                .map(|mark| (mark[0], mark[1]))
                .collect(),
        })
    }

    fn stem(&self, word: &str) -> String {
        let word: Vec<char> = word.chars().collect();
        let word = self.run(self.before, &word, &[]).unwrap_or(word);
        let backwards: Vec<char> = word.iter().rev().copied().collect();
        let mut marks = vec![0];
        for (step, least) in &self.marks {
            let rest = self
                .run(*step, &backwards, &[])
                .map_or(0, |rest| rest.len());
            marks.push((word.len() - rest).max(*least));
        }
        let stem = self.run(self.main, &word, &marks).unwrap_or(word);
        stem.into_iter().collect()
    }

    /// What a step makes of a word, where it applies.
    fn run(&self, step: usize, word: &[char], marks: &[usize]) -> Option<Vec<char>> {
        let steps = &self.steps;
        let mut run = Run {
            steps,
            marks,
            text: word.to_vec(),
        };
        let length = run.apply(step, word.len(), DEEPEST)?;
        run.text.truncate(length);
        Some(run.text)
    }
}

/// A word that goes through steps. Each call is given the length of the beginning that counts, and
/// gives that of what it made of it.
struct Run<'t> {
    steps: &'t [Step],
    marks: &'t [usize],
    text: Vec<char>,
}

impl Run<'_> {
    fn apply(&mut self, number: usize, length: usize, depth: usize) -> Option<usize> {
        let steps = self.steps;
        match (steps.get(number), depth.checked_sub(1)) {
            (Some(step), Some(depth)) => self.step(step, length, depth),
            _ => Some(length),
        }
    }

    fn mark(&self, number: usize) -> usize {
        self.marks.get(number).copied().unwrap_or(0)
    }

    fn step(&mut self, step: &Step, length: usize, depth: usize) -> Option<usize> {
        let text = &self.text[..length];
        match step {
            Step::Add(end) => Some(self.put(length, end)),
            Step::Reaches(mark) => Some(length).filter(|length| *length >= self.mark(*mark)),
            Step::One(class) => text
                .last()
                .filter(|last| class.has(**last))
                .map(|_| length - 1),
            Step::Twin(class) => match text {
                [.., second, last] if second == last && class.has(*last) => Some(length - 1),
                _ => None,
            },
            Step::Run(class) => {
                let last = text.iter().rposition(|character| !class.has(*character));
                Some(last.map_or(0, |last| last + 1))
            }
            Step::Cut(mark, suffixes) => {
                let start = self.mark(*mark);
                let (step, left) = suffixes.longest(text.get(start..)?)?;
                self.apply(step, start + left, depth)
            }
            Step::Both(one, other) => {
                let left = self.apply(*one, length, depth)?;
                self.apply(*other, left, depth)
            }
            Step::Either(one, other) => match self.apply(*one, length, depth) {
                None => self.apply(*other, length, depth),
                left => left,
            },
            Step::Not(step) => match self.apply(*step, length, depth) {
                None => Some(length),
                Some(_) => None,
            },
            Step::Keep(one, other) => {
                let front = self.apply(*one, length, depth)?;
                let rest = self.text[front..length].to_vec();
                let left = self.apply(*other, front, depth)?;
                Some(self.put(left, &rest))
            }
            Step::Sweep(class, step) => {
                if !text.iter().any(|character| class.has(*character)) {
                    return Some(length);
                }
                let typed = text.to_vec();
                Some(typed.into_iter().fold(0, |left, character| {
                    let left = self.put(left, &[character]);
                    self.apply(*step, left, depth).unwrap_or(left)
                }))
            }
        }
    }

    /// Puts characters behind a beginning of the text, in place of what follows it. Without any,
    /// what follows stays: a step that only looks goes back to it.
    fn put(&mut self, length: usize, end: &[char]) -> usize {
        if !end.is_empty() {
            self.text.truncate(length);
            self.text.extend_from_slice(end);
        }
        length + end.len()
    }
}

/// A stage that makes a token its stem, and drops it where the stem is empty.
pub(super) struct Stemmer {
    name: String,
    table: Table,
}

impl Stemmer {
    pub fn new(name: &str, table: &str) -> Self {
        Stemmer {
            name: name.to_owned(),
            table: Table::of(table).expect("a table of this crate"),
        }
    }
}

impl PipelineFn for Stemmer {
    fn name(&self) -> String {
        self.name.clone()
    }

    fn filter(&self, token: String) -> Option<String> {
        Some(self.table.stem(&token)).filter(|stem| !stem.is_empty())
    }
}
