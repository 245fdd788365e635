//! How much work the text's support searches would be. They open the same block again and again, so that a small store
//! can keep the text busy for years; such streams and calls are left out.

use std::collections::HashMap;

use stream::{Block, Reference};

/// The steps that one stream or call may cost.
pub const STEPS: u64 = 300_000;

/// The stored blocks with their includes as rows.
pub struct Searches<'a> {
    stored: &'a [Block],
    includes: Vec<Vec<usize>>,
}

impl<'a> Searches<'a> {
    /// Of blocks that stand after all they include.
    pub fn new(stored: &'a [Block]) -> Self {
        let mut rows: HashMap<&Reference, usize> = HashMap::new();
        let mut includes = vec![];
        for (row, block) in stored.iter().enumerate() {
            includes.push(block.includes.iter().map(|include| rows[include]).collect());
            rows.insert(&block.reference, row);
        }
        Self { stored, includes }
    }

    /// At least as many blocks as the direct and the indirect rule open for one position.
    pub fn steps(&self, (authority, round): (u64, u64), wave_length: u64) -> u64 {
        let at = |row: usize| {
            let reference = &self.stored[row].reference;
            (reference.authority, reference.round) == (authority, round)
        };
        let leaders = (0..self.stored.len()).filter(|row| at(*row)).count() as u64;
        if leaders == 0 {
            return 1;
        }
        let costs = self.costs(round, at);
        let mut steps = 1u64;
        for (row, block) in self.stored.iter().enumerate() {
            if block.reference.round == round + wave_length - 2 {
                steps = steps.saturating_add(costs[row]);
            }
            if block.reference.round == round + wave_length - 1 {
                for include in &self.includes[row] {
                    steps = steps.saturating_add(costs[*include].saturating_mul(2));
                }
            }
        }
        steps.saturating_mul(leaders)
    }

    /// For each row the blocks that a search from it opens.
    fn costs(&self, round: u64, at: impl Fn(usize) -> bool) -> Vec<u64> {
        let mut costs = vec![1u64; self.stored.len()];
        let mut finds = vec![false; self.stored.len()];
        for row in 0..self.stored.len() {
            if self.stored[row].reference.round <= round {
                continue;
            }
            for include in self.includes[row].iter().copied() {
                if at(include) {
                    finds[row] = true;
                } else if self.stored[include].reference.round >= round {
                    costs[row] = costs[row].saturating_add(costs[include]);
                    finds[row] = finds[include];
                }
                if finds[row] {
                    break;
                }
            }
        }
        costs
    }
}
