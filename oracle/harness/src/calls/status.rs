//! The status of one leader.

use mysticeti_core::consensus::LeaderStatus;
use stream::{Block, Reference};

use super::{request::Request, Answer};
use crate::{
    limits::Refusal,
    text::{self, caught},
};

/// The status of a request: authority, round, kind (1 commit, 2 skip, any other number undecided), row. The row of a
/// commit is its block's first digest word, since the text knows no rows.
fn status(request: &mut Request) -> LeaderStatus {
    let [authority, round, kind, row] = [(); 4].map(|_| request.number());
    let reference = Reference { authority, round, digest: [row, 0, 0, 0] };
    match kind {
        1 => LeaderStatus::Commit(text::block(&Block { reference, includes: vec![] })),
        2 => LeaderStatus::Skip(authority, round),
        _ => LeaderStatus::Undecided(authority, round),
    }
}

/// Authority, round and whether it is decided.
pub fn read(request: &mut Request) -> Answer {
    let status = status(request);
    Ok(vec![status.authority(), status.round(), status.is_decided() as u64])
}

/// The row of the committed block. The text panics where nothing is decided.
pub fn into_decided_block(request: &mut Request) -> Answer {
    let status = status(request);
    let block = caught(|| status.into_decided_block()).map_err(undecided)?;
    let row = block.as_ref().map(|block| text::our_reference(block.reference()).digest[0]);
    Ok(vec![row.is_some() as u64, row.unwrap_or(0)])
}

fn undecided(message: String) -> Refusal {
    assert!(message.contains("Decided block is either Commit or Skip"), "the text panicked: {message}");
    Refusal::BadArgument
}

/// 0 below, 1 equal, 2 above.
pub fn compare(request: &mut Request) -> Answer {
    let (a, b) = (status(request), status(request));
    Ok(vec![(a.cmp(&b) as i8 + 1) as u64])
}
