//! The threshold clock.

use crate::{committee::Committee, Mistake};

/// The clock's round and who has a block in it.
#[derive(Default)]
pub struct Clock {
    pub round: u64,
    pub voters: Vec<u64>,
}

impl Clock {
    pub fn add_block(&mut self, authority: u64, round: u64, committee: &Committee) {
        let mistake = committee.mistake;
        if round < self.round && mistake != Mistake::ClockCountsLower {
            return;
        }
        if round > self.round {
            self.jump(authority, round, committee);
            return;
        }
        self.voters.push(authority);
        if self.quorum(committee) {
            self.round += 1;
            if mistake != Mistake::ClockQuorumKeepsVoters {
                self.voters.clear();
            }
        }
    }

    /// A block above the clock sets its round; its own vote never advances it further.
    fn jump(&mut self, authority: u64, round: u64, committee: &Committee) {
        let mistake = committee.mistake;
        if mistake != Mistake::ClockHigherKeepsVoters {
            self.voters.clear();
        }
        if mistake != Mistake::ClockHigherNotCounted {
            self.voters.push(authority);
        }
        self.round = if mistake == Mistake::ClockHigherMovesByOne { self.round + 1 } else { round };
        if mistake == Mistake::ClockHigherAdvances && self.quorum(committee) {
            self.round += 1;
            self.voters.clear();
        }
    }

    fn quorum(&self, committee: &Committee) -> bool {
        let twice = committee.mistake == Mistake::ClockTwinsTwice;
        committee.is_quorum(committee.stake_of(self.voters.iter().copied(), twice))
    }
}
