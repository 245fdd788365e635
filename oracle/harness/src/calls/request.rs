//! A request line: a name and numbers.

use mysticeti_core::types::AuthoritySet;
use stream::Reference;

/// A request, read from left to right.
pub struct Request<'a> {
    name: &'a str,
    words: std::str::Split<'a, char>,
}

impl<'a> Request<'a> {
    pub fn new(line: &'a str) -> Self {
        let mut words = line.split(' ');
        Self { name: words.next().unwrap_or_default(), words }
    }

    pub fn name(&self) -> &'a str {
        self.name
    }

    pub fn number(&mut self) -> u64 {
        let word = self.words.next().unwrap_or_else(|| panic!("{}: a number is lacking", self.name));
        word.parse().unwrap_or_else(|_| panic!("{}: {word} is no number", self.name))
    }

    pub fn index(&mut self) -> usize {
        self.number() as usize
    }

    /// A slice: its length, how many words follow, the words; the others are zero.
    pub fn slice(&mut self) -> Vec<u64> {
        let (length, used) = (self.index(), self.index());
        let mut words: Vec<u64> = (0..used).map(|_| self.number()).collect();
        words.resize(length, 0);
        words
    }

    pub fn reference(&mut self) -> Reference {
        let (authority, round) = (self.number(), self.number());
        Reference { authority, round, digest: std::array::from_fn(|_| self.number()) }
    }

    /// Two words of a voter set.
    pub fn voters(&mut self) -> u128 {
        let (low, high) = (self.number(), self.number());
        u128::from(low) | u128::from(high) << 64
    }
}

/// A slice of a response: its length, how many words follow, the words up to the last that is not zero.
pub fn put_slice(values: &mut Vec<u64>, words: &[u64]) {
    let used = words.iter().rposition(|word| *word != 0).map_or(0, |last| last + 1);
    values.push(words.len() as u64);
    values.push(used as u64);
    values.extend(&words[..used]);
}

/// The words of an area that holds these and then zeros.
pub fn padded(mut words: Vec<u64>, length: usize) -> Vec<u64> {
    words.resize(length, 0);
    words
}

/// The text's set of these voters.
pub fn authority_set(voters: u128) -> AuthoritySet {
    let mut set = AuthoritySet::default();
    for authority in (0..128).filter(|authority| voters >> authority & 1 == 1) {
        set.insert(authority);
    }
    set
}

/// The two words of these authorities.
pub fn words_of(authorities: impl Iterator<Item = u64>) -> [u64; 2] {
    let voters = authorities.fold(0u128, |voters, authority| voters | 1 << authority);
    [voters as u64, (voters >> 64) as u64]
}
