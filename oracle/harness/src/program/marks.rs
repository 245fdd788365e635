//! What streams must reach, and where a run counts it.

use std::collections::HashSet;

use mysticeti_core::consensus::LeaderStatus;
use stream::{Block, Header, Reference};

use super::{Program, ROOM};
use crate::{
    limits::{Refusal, MAX_TOTAL},
    offers::Verdict,
    reach::Reach,
    text::TwoCertified,
};

/// What streams must reach.
pub const REACH: &[&str] = &[
    "size 1",
    "size 2 to 4",
    "size 5 to 31",
    "size 32 to 127",
    "size 128",
    "uneven stakes",
    "total at the limit",
    "wave length 4",
    "wave length 5",
    "wave length 6 to 15",
    "wave length 16 to 62",
    "wave length 63",
    "one leader",
    "some leaders",
    "all leaders",
    "pipelined",
    "not pipelined",
    "header: no bytes",
    "header: cut",
    "header: padding bit set",
    "header: zero stake",
    "header: total too high",
    "header: wave length too short",
    "header: more leaders than authorities",
    "header alone",
    "offer: cut",
    "offer: padding bit set",
    "offer refused 4: authority",
    "offer refused 4: include's authority",
    "offer refused 4: include not below",
    "offer refused 4: known reference",
    "offer refused 4: would not fit",
    "offer refused 5: blocks",
    "offer refused 5: includes",
    "known: stored",
    "known: pending",
    "known: other includes",
    "known: would not fit",
    "exactly full: blocks",
    "exactly full: includes",
    "stored alone",
    "pending",
    "growth of 8 and more",
    "waiting chain of 8 and more",
    "waiting star of 8 and more",
    "followers before the next waiter",
    "of more than 64 waiting none goes in",
    "of more than 64 waiting some go in",
    "of more than 64 waiting all go in",
    "more than 64 go in",
    "more than 64 go in: a chain",
    "more than 64 go in: with twins",
    "repeated include",
    "weak link",
    "include with two twins",
    "round above 2^39",
    "twins of a leader",
    "twins of a voter",
    "clock: advanced by a quorum",
    "clock: set by a higher block",
    "direct commit",
    "direct skip",
    "indirect commit",
    "indirect skip",
    "undecided run",
    "decided past a gap",
    "remembered decision returned later",
    "several statuses at once",
    "last decided is a skip",
    "commit line",
    "skip line",
    "sub-DAG of 4 and more",
    "sub-DAG order differs from row order",
    "try_commit refused 5",
    "try_commit refused 7: direct",
    "try_commit refused 7: indirect",
    "try_commit refused 7: pipelined",
    "try_commit refused 8",
];

/// A port may release more waiting blocks than so many in another way.
const MANY: usize = 64;

pub(super) fn mark_header(header: &Header, reach: &mut Reach) {
    let stakes = &header.stakes;
    reach.mark(match stakes.len() {
        1 => "size 1",
        2..=4 => "size 2 to 4",
        5..=31 => "size 5 to 31",
        32..=127 => "size 32 to 127",
        _ => "size 128",
    });
    reach.mark_if(stakes.iter().any(|stake| *stake != stakes[0]), "uneven stakes");
    reach.mark_if(stakes.iter().sum::<u64>() == MAX_TOTAL, "total at the limit");
    reach.mark(match header.wave_length {
        4 => "wave length 4",
        5 => "wave length 5",
        6..=15 => "wave length 6 to 15",
        16..=62 => "wave length 16 to 62",
        _ => "wave length 63",
    });
    reach.mark(match header.leaders {
        1 => "one leader",
        leaders if leaders == stakes.len() as u64 => "all leaders",
        _ => "some leaders",
    });
    reach.mark(if header.pipelined { "pipelined" } else { "not pipelined" });
}

/// What is counted along the way.
impl Program {
    pub(super) fn mark_before(&mut self, offer: &Block) {
        let size = self.committee.len() as u64;
        let reference = offer.reference;
        let stored = self.offers.row(&reference).map(|row| self.offers.stored[row].clone());
        let pending = self.offers.pending.iter().find(|block| block.reference == reference);
        let known = stored.as_ref().or(pending);
        let mut includes = offer.includes.iter();
        let unknown_author = reference.authority >= size;
        let unknown_include = includes.clone().any(|include| include.authority >= size);
        let not_below = includes.any(|include| include.round >= reference.round);
        let good = !unknown_author && !unknown_include && !not_below;
        let reach = &mut self.reach;
        reach.mark_if(unknown_author, "offer refused 4: authority");
        reach.mark_if(unknown_include, "offer refused 4: include's authority");
        reach.mark_if(not_below, "offer refused 4: include not below");
        reach.mark_if(!good && known.is_some(), "offer refused 4: known reference");
        let accepted = self.offers.stored.len() + self.offers.pending.len();
        let full = accepted == ROOM.blocks;
        reach.mark_if(!good && full, "offer refused 4: would not fit");
        let Some(known) = known.filter(|_| good) else {
            return;
        };
        reach.mark(if stored.is_some() { "known: stored" } else { "known: pending" });
        reach.mark_if(known.includes != offer.includes, "known: other includes");
        reach.mark_if(full, "known: would not fit");
    }

    pub(super) fn mark_after(&mut self, offer: &Block, verdict: Verdict) {
        let accepted = self.offers.stored.iter().chain(&self.offers.pending);
        let blocks = accepted.clone().count();
        let includes: usize = accepted.map(|block| block.includes.len()).sum();
        let reach = &mut self.reach;
        match verdict {
            Verdict::Known => return,
            Verdict::Refused(Refusal::Full) => {
                let full = blocks == ROOM.blocks;
                reach.mark(if full { "offer refused 5: blocks" } else { "offer refused 5: includes" });
                return;
            }
            Verdict::Refused(_) => return,
            Verdict::Pending => reach.mark("pending"),
            Verdict::Stored(growth) => {
                reach.mark_if(growth == 1, "stored alone");
                reach.mark_if(growth >= 8, "growth of 8 and more");
                mark_release(&self.offers.stored, growth, reach);
                mark_long_release(&self.offers.stored, growth, self.offers.pending.len(), reach);
            }
        }
        reach.mark_if(blocks == ROOM.blocks, "exactly full: blocks");
        reach.mark_if(includes == ROOM.includes, "exactly full: includes");
        mark_offer(offer, reach);
    }

    pub(super) fn mark_two_certified(&mut self, rule: TwoCertified) {
        self.reach.mark(match rule {
            TwoCertified::Direct => "try_commit refused 7: direct",
            TwoCertified::Indirect => "try_commit refused 7: indirect",
        });
        self.reach.mark_if(self.options.pipelined, "try_commit refused 7: pipelined");
    }

    /// Positions are in the order reached, highest first; `remembered` says which were decided before this call.
    pub(super) fn mark_decisions(&mut self, positions: &[(u64, u64)], remembered: &[bool], statuses: &[LeaderStatus]) {
        for rule in ["direct-commit", "direct-skip", "indirect-commit", "indirect-skip"] {
            let name = REACH.iter().find(|name| **name == rule.replace('-', " ")).expect("listed");
            let total = self.metrics.committed_leaders_total.sum_of(rule);
            self.reach.set(name, total);
        }
        let decided: Vec<_> = positions.iter().map(|position| self.decided(*position)).collect();
        self.reach.mark_if(decided.windows(2).any(|pair| pair == [false, false]), "undecided run");
        for (i, position) in positions.iter().enumerate() {
            let gap_below = decided[i + 1..].contains(&false);
            if decided[i] && !remembered[i] && gap_below {
                self.reach.mark("decided past a gap");
                self.returned_late.insert(*position);
            }
        }
        for status in statuses {
            let position = (status.authority(), status.round());
            let late = self.returned_late.contains(&position) && remembered_in(positions, remembered, position);
            self.reach.mark_if(late, "remembered decision returned later");
        }
        for (authority, round) in positions {
            self.mark_twins(*authority, *round);
        }
    }

    fn mark_twins(&mut self, authority: u64, round: u64) {
        let leaders = self.store.store.get_blocks_at_authority_round(authority, round);
        if leaders.is_empty() {
            return;
        }
        self.reach.mark_if(leaders.len() > 1, "twins of a leader");
        let voters = self.store.store.get_blocks_by_round(round + self.options.wave_length - 2);
        let authors: HashSet<_> = voters.iter().map(|block| block.author()).collect();
        self.reach.mark_if(authors.len() < voters.len(), "twins of a voter");
    }
}

fn remembered_in(positions: &[(u64, u64)], remembered: &[bool], wanted: (u64, u64)) -> bool {
    positions.iter().zip(remembered).any(|(position, before)| *position == wanted && *before)
}

/// Marks in which ways the last `growth` rows released each other.
fn mark_release(stored: &[Block], growth: usize, reach: &mut Reach) {
    let new = &stored[stored.len() - growth..];
    let first = new[0].reference;
    let includes = |pair: &[Block]| pair[1].includes.contains(&pair[0].reference);
    let chain = new.windows(2).take_while(|pair| includes(pair)).count();
    let star = new.iter().filter(|block| block.includes.contains(&first)).count();
    reach.mark_if(chain >= 7, "waiting chain of 8 and more");
    reach.mark_if(star >= 8, "waiting star of 8 and more");
    let waiters: Vec<_> = (1..growth).filter(|row| new[*row].includes.contains(&first)).collect();
    let gap = waiters.windows(2).any(|pair| pair[1] > pair[0] + 1);
    reach.mark_if(gap, "followers before the next waiter");
}

/// Marks how many waiting blocks the first of the last `growth` rows let in, where there were many; `left` stay.
fn mark_long_release(stored: &[Block], growth: usize, left: usize, reach: &mut Reach) {
    let released = &stored[stored.len() - growth + 1..];
    if released.len() + left <= MANY {
        return;
    }
    reach.mark(match (released.len(), left) {
        (0, _) => "of more than 64 waiting none goes in",
        (_, 0) => "of more than 64 waiting all go in",
        _ => "of more than 64 waiting some go in",
    });
    if released.len() > MANY {
        let chain = released.windows(2).all(|pair| pair[1].includes.contains(&pair[0].reference));
        let references: Vec<_> = released.iter().map(|block| block.reference).collect();
        reach.mark("more than 64 go in");
        reach.mark_if(chain, "more than 64 go in: a chain");
        reach.mark_if(with_twins(&references), "more than 64 go in: with twins");
    }
}

/// Whether two different references are of one position.
fn with_twins(references: &[Reference]) -> bool {
    let twins = |a: &Reference, b: &Reference| (a.authority, a.round) == (b.authority, b.round) && a.digest != b.digest;
    references.iter().any(|a| references.iter().any(|b| twins(a, b)))
}

fn mark_offer(offer: &Block, reach: &mut Reach) {
    let includes = &offer.includes;
    let repeated = (1..includes.len()).any(|i| includes[..i].contains(&includes[i]));
    let both = with_twins(includes);
    let weak = includes.iter().any(|include| include.round + 1 < offer.reference.round);
    reach.mark_if(repeated, "repeated include");
    reach.mark_if(both, "include with two twins");
    reach.mark_if(weak, "weak link");
    reach.mark_if(offer.reference.round >= 1 << 39, "round above 2^39");
}
