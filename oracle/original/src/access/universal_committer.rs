//! The decision memory, which its module keeps private.

use super::{LeaderStatus, UniversalCommitter};
use crate::types::{AuthorityIndex, RoundNumber};

/// Puts a decision into the memory, as if an earlier call had reached it.
pub fn remember(committer: &mut UniversalCommitter, status: LeaderStatus) {
    let position = (status.authority(), status.round());
    committer.previously_committed_leaders.insert(position, status);
}

/// What the memory holds for a position.
pub fn remembered(
    committer: &UniversalCommitter,
    authority: AuthorityIndex,
    round: RoundNumber,
) -> Option<&LeaderStatus> {
    committer.previously_committed_leaders.get(&(authority, round))
}

/// How many decisions the memory holds.
pub fn count(committer: &UniversalCommitter) -> usize {
    committer.previously_committed_leaders.len()
}
