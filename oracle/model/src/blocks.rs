//! The stored rows, and paths between them.

use stream::{Block, Reference};

use crate::Mistake;

/// A stored block, its includes as rows.
#[derive(Clone, Debug)]
pub struct Row {
    pub authority: u64,
    pub round: u64,
    pub includes: Vec<usize>,
}

/// Whether two references name one block.
pub fn same(a: &Reference, b: &Reference, mistake: Mistake) -> bool {
    let words = match mistake {
        Mistake::DigestIgnored => 0,
        Mistake::FirstDigestWordOnly => 1,
        Mistake::LastDigestWordIgnored => 3,
        _ => 4,
    };
    (a.authority, a.round) == (b.authority, b.round) && a.digest[..words] == b.digest[..words]
}

/// The rows of stored blocks.
pub fn rows(stored: &[Block], mistake: Mistake) -> Vec<Row> {
    let row_of = |include: &Reference| stored.iter().position(|block| same(&block.reference, include, mistake));
    let row = |block: &Block| Row {
        authority: block.reference.authority,
        round: block.reference.round,
        includes: block.includes.iter().filter_map(row_of).collect(),
    };
    stored.iter().map(row).collect()
}

/// The rows at a position.
pub fn at(rows: &[Row], authority: u64, round: u64) -> Vec<usize> {
    let there = |row: &usize| (rows[*row].authority, rows[*row].round) == (authority, round);
    (0..rows.len()).filter(there).collect()
}

/// The rows of a round.
pub fn of_round(rows: &[Row], round: u64) -> Vec<usize> {
    (0..rows.len()).filter(|row| rows[*row].round == round).collect()
}

/// Whether the later block reaches the earlier one, stepping back one round at a time.
pub fn linked(rows: &[Row], later: usize, earlier: usize, mistake: Mistake) -> bool {
    if mistake == Mistake::LinkedByAnyPath {
        return reaches(rows, later, earlier);
    }
    let mut kept = vec![later];
    for round in (rows[earlier].round..rows[later].round).rev() {
        let included = |row: &usize| kept.iter().any(|above| rows[*above].includes.contains(row));
        kept = of_round(rows, round).into_iter().filter(included).collect();
        if kept.is_empty() {
            return false;
        }
    }
    if mistake == Mistake::LinkedByAuthor {
        return kept.iter().any(|row| rows[*row].authority == rows[earlier].authority);
    }
    kept.contains(&earlier)
}

/// Whether a path of includes leads from one row to another, or they are the same.
pub fn reaches(rows: &[Row], from: usize, to: usize) -> bool {
    let mut reached = vec![false; rows.len()];
    reached[from] = true;
    for row in (0..=from).rev().filter(|row| *row >= to) {
        if reached[row] {
            rows[row].includes.iter().for_each(|include| reached[*include] = true);
        }
    }
    reached[to]
}
