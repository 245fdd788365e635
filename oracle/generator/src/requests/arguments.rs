//! What a request line is made of.

use std::fmt;

use crate::prng::Prng;

/// One argument.
#[derive(Clone, Debug, PartialEq, Eq)]
pub enum Argument {
    Number(u64),
    /// The length of an area, which the caller fills with anything.
    Area(u64),
    /// The stakes listed of a committee's 128.
    Stakes(Vec<u64>),
    Slice(Vec<u64>),
}

/// A call by its name, with its arguments.
#[derive(Clone, Debug, PartialEq, Eq)]
pub struct Request {
    pub name: &'static str,
    pub arguments: Vec<Argument>,
}

impl Request {
    /// The length of the longest slice or area.
    pub fn longest(&self) -> usize {
        let lengths = self.arguments.iter().map(|argument| match argument {
            Argument::Number(_) => 0,
            Argument::Area(length) => *length as usize,
            Argument::Stakes(words) | Argument::Slice(words) => words.len(),
        });
        lengths.max().unwrap_or(0)
    }

    /// Changes one argument, if there is any.
    pub fn change(&mut self, prng: &mut Prng) {
        if self.arguments.is_empty() {
            return;
        }
        let which = prng.below(self.arguments.len() as u64) as usize;
        match &mut self.arguments[which] {
            Argument::Number(number) => *number = changed(prng, *number),
            Argument::Area(length) => *length = length.wrapping_add(prng.below(9)).saturating_sub(4),
            Argument::Stakes(stakes) if stakes.len() < 128 && prng.chance(30) => stakes.push(prng.below(3)),
            Argument::Stakes(words) => change_word(prng, words),
            Argument::Slice(words) if prng.chance(60) => change_word(prng, words),
            Argument::Slice(words) => change_length(prng, words),
        }
    }
}

/// A number near this one or at some limit.
fn changed(prng: &mut Prng, number: u64) -> u64 {
    let limits = [0, 1, 127, 128, 511, 512, 1 << 39, (1 << 40) - 1, 1 << 40, (1 << 40) + 1, u64::MAX];
    match prng.below(6) {
        0..=1 => number.wrapping_add(1),
        2 => number.saturating_sub(1),
        3 => prng.below(8),
        4 => *prng.pick(&limits),
        _ => number ^ (1 << prng.below(64)),
    }
}

fn change_word(prng: &mut Prng, words: &mut [u64]) {
    if !words.is_empty() {
        let which = prng.below(words.len() as u64) as usize;
        words[which] = changed(prng, words[which]);
    }
}

fn change_length(prng: &mut Prng, words: &mut Vec<u64>) {
    let word = prng.below(2);
    match prng.below(4) {
        0 => words.push(word),
        1 => words.extend([word; 4]),
        2 => words.extend([0; 8]),
        _ => words.truncate(words.len().saturating_sub(prng.from(1, 8) as usize)),
    }
}

impl fmt::Display for Request {
    fn fmt(&self, f: &mut fmt::Formatter<'_>) -> fmt::Result {
        write!(f, "{}", self.name)?;
        self.arguments.iter().try_for_each(|argument| argument.fmt(f))
    }
}

impl fmt::Display for Argument {
    fn fmt(&self, f: &mut fmt::Formatter<'_>) -> fmt::Result {
        match self {
            Argument::Number(number) | Argument::Area(number) => write!(f, " {number}"),
            Argument::Stakes(words) => words_after(f, words.len(), words),
            Argument::Slice(words) => {
                let used = words.iter().rposition(|word| *word != 0).map_or(0, |last| last + 1);
                write!(f, " {}", words.len())?;
                words_after(f, used, &words[..used])
            }
        }
    }
}

fn words_after(f: &mut fmt::Formatter<'_>, count: usize, words: &[u64]) -> fmt::Result {
    write!(f, " {count}")?;
    words.iter().try_for_each(|word| write!(f, " {word}"))
}
