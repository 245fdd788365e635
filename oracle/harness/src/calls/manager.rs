//! Offers and the missing list.

use super::{
    committee::committee,
    request::{padded, put_slice, Request},
    tables::{
        both_sides, pending_tables, put_reference, references, stored_tables, PendingWords, StoredWords,
        REFERENCE_WORDS,
    },
    Answer,
};
use crate::{
    limits::Refusal,
    offers::{Offers, Verdict},
};
use mysticeti_core::committee::Committee;
use std::sync::Arc;
use stream::Block;

/// The accepted blocks of the two lent sides, the text's manager among them.
fn accepted(request: &mut Request, committee: &Arc<Committee>) -> Result<Offers, Refusal> {
    let (stored, pending) = (StoredWords::read(request), PendingWords::read(request));
    let (room, stored, pending) = both_sides(&stored, &pending, committee.len() as u64)?;
    let mut offers = Offers::new(committee, room);
    for block in &stored {
        assert_eq!(offers.offer(block), Verdict::Stored(1));
    }
    for block in &pending {
        assert_eq!(offers.offer(block), Verdict::Pending);
    }
    Ok(offers)
}

/// 1 stored, 2 pending, 3 known; the growth, both counts and the four tables.
pub fn add_block(request: &mut Request) -> Answer {
    let committee = committee(request)?;
    let offers = accepted(request, &committee);
    let reference = request.reference();
    let includes = references(&request.slice());
    let (mut offers, includes) = (offers?, includes?);
    let (kind, growth) = match offers.offer(&Block { reference, includes }) {
        Verdict::Stored(growth) => (1, growth),
        Verdict::Pending => (2, 0),
        Verdict::Known => (3, 0),
        Verdict::Refused(refusal) => return Err(refusal.into()),
    };
    let mut values = vec![kind, growth as u64, offers.stored.len() as u64, offers.pending.len() as u64];
    let stored = stored_tables(&offers.stored, offers.room());
    let pending = pending_tables(&offers.pending, offers.room());
    stored.iter().chain(&pending).for_each(|table| put_slice(&mut values, table));
    Ok(values)
}

/// The number of missing references and the area.
pub fn missing_blocks(request: &mut Request) -> Answer {
    let committee = committee(request)?;
    let offers = accepted(request, &committee)?;
    let (authority, area) = (request.number(), request.index());
    if area % REFERENCE_WORDS != 0 {
        return Err(Refusal::BadTable.into());
    }
    if !committee.known_authority(authority) {
        return Err(Refusal::BadArgument.into());
    }
    let missing = offers.missing(authority);
    if missing.len() > area / REFERENCE_WORDS {
        return Err(Refusal::ShortArea.into());
    }
    let mut rows = vec![];
    missing.iter().for_each(|reference| put_reference(&mut rows, reference));
    let mut values = vec![missing.len() as u64];
    put_slice(&mut values, &padded(rows, area));
    Ok(values)
}
