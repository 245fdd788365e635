//! How often a run reached each thing that it must reach.

use std::collections::BTreeMap;

/// A count for each name of a fixed list.
#[derive(Clone)]
pub struct Reach {
    names: &'static [&'static str],
    counts: BTreeMap<&'static str, u64>,
}

impl Reach {
    pub fn new(names: &'static [&'static str]) -> Self {
        Self { names, counts: BTreeMap::new() }
    }

    /// Counts one of the list's names.
    pub fn mark(&mut self, name: &'static str) {
        self.add(name, 1);
    }

    /// Counts one of the list's names if so.
    pub fn mark_if(&mut self, so: bool, name: &'static str) {
        self.add(name, u64::from(so));
    }

    /// Counts one of the list's names several times.
    pub fn add(&mut self, name: &'static str, times: u64) {
        assert!(self.names.contains(&name), "{name} is not listed");
        *self.counts.entry(name).or_default() += times;
    }

    /// Makes the count of one of the list's names this one.
    pub fn set(&mut self, name: &'static str, count: u64) {
        assert!(self.names.contains(&name), "{name} is not listed");
        self.counts.insert(name, count);
    }

    /// Adds another count of the same list.
    pub fn merge(&mut self, other: &Reach) {
        for (name, count) in &other.counts {
            self.add(name, *count);
        }
    }

    /// A line for each name, in the list's order.
    pub fn lines(&self) -> String {
        self.names.iter().map(|name| format!("{:>10}  {name}\n", self.count(name))).collect()
    }

    /// The names that were never reached.
    pub fn unreached(&self) -> Vec<&'static str> {
        self.names.iter().copied().filter(|name| self.count(name) == 0).collect()
    }

    fn count(&self, name: &str) -> u64 {
        self.counts.get(name).copied().unwrap_or(0)
    }
}
