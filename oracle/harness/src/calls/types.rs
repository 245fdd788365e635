//! Authority sets and the ordering of references.

use mysticeti_core::types::{AuthoritySet, BlockReference};

use super::{
    request::{authority_set, words_of, Request},
    Answer,
};
use crate::{
    limits::{Refusal, MAX_AUTHORITIES},
    text,
};

pub fn insert(request: &mut Request) -> Answer {
    let mut set = authority_set(request.voters());
    let authority = request.number();
    if authority >= MAX_AUTHORITIES {
        return Err(Refusal::BadArgument.into());
    }
    let absent = set.insert(authority);
    let [low, high] = words_of(set.present());
    Ok(vec![absent as u64, low, high])
}

pub fn contains(request: &mut Request) -> Answer {
    let set = authority_set(request.voters());
    let authority = request.number();
    let contains = set.present().any(|present| present == authority);
    Ok(vec![contains as u64])
}

pub fn count(request: &mut Request) -> Answer {
    Ok(vec![authority_set(request.voters()).present().count() as u64])
}

/// The first present authority from a number on.
pub fn next(request: &mut Request) -> Answer {
    let set = authority_set(request.voters());
    let from = request.number();
    let next = set.present().find(|authority| *authority >= from);
    Ok(vec![next.is_some() as u64, next.unwrap_or(0)])
}

/// An empty set, then the set after it was cleared.
pub fn clear(request: &mut Request) -> Answer {
    let mut set = authority_set(request.voters());
    set.clear();
    let empty = words_of(AuthoritySet::default().present());
    Ok([empty, words_of(set.present())].concat())
}

/// 0 below, 1 equal, 2 above. The text compares a digest with itself; between twins the digests decide here.
pub fn compare(request: &mut Request) -> Answer {
    let (a, b) = (request.reference(), request.reference());
    let by_position = text::reference(&a).cmp(&text::reference(&b));
    let order = by_position.then(a.digest.cmp(&b.digest));
    Ok(vec![(order as i8 + 1) as u64])
}

pub fn equal(request: &mut Request) -> Answer {
    let (a, b) = (text::reference(&request.reference()), text::reference(&request.reference()));
    Ok(vec![(a == b) as u64])
}

/// The round, authority and round, authority and digest.
pub fn parts(request: &mut Request) -> Answer {
    let reference = text::reference(&request.reference());
    let (authority, round) = reference.author_round();
    let (author, digest) = reference.author_digest();
    let mut values = vec![reference.round(), authority, round, author];
    values.extend(text::our_reference(&BlockReference { authority, round, digest }).digest);
    Ok(values)
}
