//! The numbers of a request line and of a response.

use stream::Reference;

use crate::Mistake;

/// A request line, read from left to right.
pub struct Line<'a> {
    name: &'a str,
    numbers: Vec<u64>,
    next: usize,
    pub mistake: Mistake,
}

impl<'a> Line<'a> {
    pub fn new(line: &'a str, mistake: Mistake) -> Self {
        let (name, numbers) = line.split_once(' ').unwrap_or((line, ""));
        let numbers = numbers.split(' ').filter_map(|word| word.parse().ok()).collect();
        Self { name, numbers, next: 0, mistake }
    }

    pub fn name(&self) -> &'a str {
        self.name
    }

    /// Whether the model makes this mistake.
    pub fn makes(&self, mistake: Mistake) -> bool {
        self.mistake == mistake
    }

    pub fn number(&mut self) -> u64 {
        self.next += 1;
        self.numbers[self.next - 1]
    }

    pub fn length(&mut self) -> usize {
        self.number() as usize
    }

    pub fn words(&mut self, count: usize) -> Vec<u64> {
        (0..count).map(|_| self.number()).collect()
    }

    pub fn slice(&mut self) -> Vec<u64> {
        let (length, used) = (self.length(), self.length());
        let mut words = self.words(used);
        words.resize(length, 0);
        words
    }

    pub fn reference(&mut self) -> Reference {
        reference(&self.words(6))
    }

    pub fn voters(&mut self) -> u128 {
        u128::from(self.number()) | u128::from(self.number()) << 64
    }
}

/// The reference in six words.
pub fn reference(words: &[u64]) -> Reference {
    Reference { authority: words[0], round: words[1], digest: [words[2], words[3], words[4], words[5]] }
}

/// The six words of a reference.
pub fn reference_words(reference: &Reference) -> Vec<u64> {
    [&[reference.authority, reference.round], &reference.digest[..]].concat()
}

/// An area that holds these words and then zeros, as a response shows it.
pub fn area(mut words: Vec<u64>, length: usize) -> Vec<u64> {
    while words.last() == Some(&0) {
        words.pop();
    }
    let mut values = vec![length as u64, words.len() as u64];
    values.extend(words);
    values
}

/// The members of a set.
pub fn members(set: u128) -> Vec<u64> {
    (0..128).filter(|authority| set >> authority & 1 == 1).collect()
}

/// The two words of a set.
pub fn set_words(members: &[u64]) -> [u64; 2] {
    let set = members.iter().fold(0u128, |set, authority| set | 1 << authority);
    [set as u64, (set >> 64) as u64]
}
