//! Sub-DAGs.

use mysticeti_core::consensus::linearizer::Linearizer;

use super::{
    request::{padded, put_slice, Request},
    store::Stored,
    tables::StoredWords,
    Answer, Stop,
};
use crate::{
    limits::{Refusal, MAX_AUTHORITIES},
    text::{self, caught, NOBODY},
};

/// The order area, the ends area and the flags.
pub fn handle_commit(request: &mut Request) -> Answer {
    let words = StoredWords::read(request);
    let blocks = words.blocks(MAX_AUTHORITIES)?;
    let flags = request.slice();
    let good = flags.len() == words.rows()
        && flags.iter().all(|flag| *flag <= 1)
        && flags[words.count..].iter().all(|flag| *flag == 0);
    if !good {
        return Err(Refusal::BadTable.into());
    }
    let leaders = request.slice();
    if leaders.iter().any(|row| *row >= blocks.len() as u64) {
        return Err(Refusal::BadArgument.into());
    }
    let (order, ends, work) = (request.index(), request.index(), request.index());
    if order < blocks.len() || work < blocks.len() || ends < leaders.len() {
        return Err(Refusal::ShortArea.into());
    }
    linearized(Stored::new(blocks, NOBODY), flags, &leaders, order, ends)
}

fn linearized(stored: Stored, mut flags: Vec<u64>, leaders: &[u64], order: usize, ends: usize) -> Answer {
    let mut linearizer = Linearizer::new();
    let flagged = stored.blocks.iter().zip(&flags).filter(|(_, flag)| **flag == 1);
    linearizer.committed = flagged.map(|(block, _)| text::reference(&block.reference)).collect();
    let leaders = leaders.iter().map(|row| stored.text_block(*row as usize)).collect();
    let sub_dags = caught(|| linearizer.handle_commit(&stored.text.store, leaders)).map_err(already_committed)?;
    let (mut rows, mut row_ends) = (vec![], vec![]);
    for sub_dag in &sub_dags {
        rows.extend(sub_dag.blocks.iter().map(|block| stored.row(block)));
        row_ends.push(rows.len() as u64);
    }
    rows.iter().for_each(|row| flags[*row as usize] = 1);
    let mut values = vec![];
    put_slice(&mut values, &padded(rows, order));
    put_slice(&mut values, &padded(row_ends, ends));
    put_slice(&mut values, &flags);
    Ok(values)
}

/// The text asserts that a leader is not committed yet.
fn already_committed(message: String) -> Stop {
    assert!(message.contains("self.committed.insert(leader_block_ref)"), "the text panicked: {message}");
    Refusal::AlreadyCommitted.into()
}
