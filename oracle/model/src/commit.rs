//! `try_commit`: the sequence of decided leaders.

use stream::Header;

use crate::{
    blocks::Row,
    committee::Committee,
    decide::{Decider, Placed, Status},
    Mistake,
};

const FULL: u64 = 5;
const TWO_CERTIFIED: u64 = 7;
const SHORT_AREA: u64 = 8;

/// More rounds than any answer has rows for.
const MANY: u64 = 10_000;

/// The options, the decisions remembered so far, and the rows of memory and answer.
pub struct Committer {
    pub header: Header,
    pub memory: Vec<Placed>,
    pub memory_rows: usize,
    pub answer_rows: usize,
}

impl Committer {
    /// The decided positions after the last decided one, lowest first, or a refusal's number.
    pub fn try_commit(
        &mut self,
        rows: &[Row],
        committee: &Committee,
        last: (u64, u64),
        threshold: u64,
    ) -> Result<Vec<Placed>, u64> {
        let mistake = committee.mistake;
        let positions = self.positions(rows, committee, last, threshold)?;
        let decider =
            Decider { rows, committee, wave_length: self.header.wave_length, pipelined: self.header.pipelined };
        let mut list: Vec<Placed> = vec![];
        let mut new: Vec<Placed> = vec![];
        for (authority, round) in positions {
            let status = match self.remembered(authority, round) {
                Some(status) => status,
                None => {
                    let status = decided(&decider, authority, round, &list).ok_or(TWO_CERTIFIED);
                    let status = match status {
                        Err(_) if mistake == Mistake::FullBeforeTwoCertified && self.full(new.len(), mistake) => {
                            return Err(FULL);
                        }
                        status => status?,
                    };
                    if status != Status::Undecided || mistake == Mistake::UndecidedRemembered {
                        new.push((authority, round, status));
                    }
                    status
                }
            };
            list.insert(0, (authority, round, status));
        }
        let returned = cut(&list, last, mistake);
        if mistake == Mistake::AnswerCountsStatuses && returned.len() > self.answer_rows {
            return Err(SHORT_AREA);
        }
        self.record(new, &returned, mistake)?;
        Ok(returned)
    }

    fn remembered(&self, authority: u64, round: u64) -> Option<Status> {
        let mut rows = self.memory.iter();
        rows.find(|row| (row.0, row.1) == (authority, round)).map(|row| row.2)
    }

    /// The positions to examine, in the order reached.
    fn positions(
        &self,
        rows: &[Row],
        committee: &Committee,
        last: (u64, u64),
        threshold: u64,
    ) -> Result<Vec<(u64, u64)>, u64> {
        let mistake = committee.mistake;
        let length = self.header.wave_length;
        let highest = rows.iter().map(|row| row.round).max().unwrap_or(0);
        let threshold = match mistake {
            Mistake::HighestForThreshold => highest,
            Mistake::ThresholdStrict => threshold.saturating_sub(1),
            Mistake::ThresholdLoose => threshold + 1,
            _ => threshold,
        };
        let none = highest < length || (highest == length && mistake == Mistake::HighestAtLength);
        if none || threshold < length {
            return Ok(vec![]);
        }
        let top = highest.min(threshold - length);
        let first = last.1 + u64::from(mistake == Mistake::LastRoundLeftOut);
        if top.saturating_sub(first) > MANY {
            return Err(SHORT_AREA);
        }
        let leaders = |round: u64| self.leaders(round, committee).into_iter().rev().map(move |a| (a, round));
        let positions: Vec<_> = (first..=top).rev().flat_map(leaders).collect();
        self.room(&positions, mistake)?;
        Ok(positions)
    }

    fn room(&self, positions: &[(u64, u64)], mistake: Mistake) -> Result<(), u64> {
        let rows = match mistake {
            Mistake::AnswerOneLess => self.answer_rows.saturating_sub(1),
            Mistake::AnswerOneMore => self.answer_rows + 1,
            Mistake::AnswerCountsStatuses => usize::MAX,
            _ => self.answer_rows,
        };
        let counted = |position: &&(u64, u64)| match mistake {
            Mistake::AnswerWithoutRoundZero => position.1 > 0,
            Mistake::AnswerWithoutRemembered => self.remembered(position.0, position.1).is_none(),
            _ => true,
        };
        if positions.iter().filter(counted).count() > rows {
            Err(SHORT_AREA)
        } else {
            Ok(())
        }
    }

    /// The leaders of a round, in the committers' order.
    pub fn leaders(&self, round: u64, committee: &Committee) -> Vec<u64> {
        let mistake = committee.mistake;
        let every = match mistake {
            Mistake::AlwaysEveryRound => true,
            Mistake::NeverEveryRound => false,
            _ => self.header.pipelined,
        };
        if !every && round % self.header.wave_length != 0 {
            return vec![];
        }
        let elected = |offset: u64| match mistake {
            Mistake::LeaderOffsetIgnored => round % committee.size(),
            Mistake::LeaderByWave => (round / self.header.wave_length + offset) % committee.size(),
            _ => (round + offset) % committee.size(),
        };
        let mut leaders: Vec<u64> = (0..self.header.leaders).map(elected).collect();
        match mistake {
            Mistake::LeadersByAuthority => leaders.sort(),
            Mistake::LeadersBackwards => leaders.reverse(),
            _ => {}
        }
        leaders
    }

    fn full(&self, new: usize, mistake: Mistake) -> bool {
        let rows = match mistake {
            Mistake::MemoryOneLess => self.memory_rows.saturating_sub(1),
            Mistake::MemoryOneMore => self.memory_rows + 1,
            _ => self.memory_rows,
        };
        self.memory.len() + new > rows
    }

    fn record(&mut self, mut new: Vec<Placed>, returned: &[Placed], mistake: Mistake) -> Result<(), u64> {
        if mistake == Mistake::MemoryCountsReturned {
            let counted = new.iter().filter(|row| returned.contains(row)).count();
            if self.full(counted, mistake) {
                return Err(FULL);
            }
        } else if self.full(new.len(), mistake) {
            return Err(FULL);
        }
        match mistake {
            Mistake::NothingRemembered => new.clear(),
            Mistake::ReturnedRemembered => new.retain(|row| returned.contains(row)),
            Mistake::CommitsRemembered => new.retain(|row| row.2 != Status::Skip),
            Mistake::SkipsRemembered => new.retain(|row| row.2 == Status::Skip),
            Mistake::MemoryLowestFirst => new.reverse(),
            _ => {}
        }
        self.memory.extend(new);
        Ok(())
    }
}

/// The direct rule, then the indirect one; nothing if two blocks are certified.
fn decided(decider: &Decider, authority: u64, round: u64, later: &[Placed]) -> Option<Status> {
    let status = decider.direct(authority, round).ok()?;
    if status != Status::Undecided {
        return Some(status);
    }
    decider.indirect(authority, round, later).ok()
}

/// What follows the last decided position, free of round 0, up to the first undecided.
fn cut(list: &[Placed], last: (u64, u64), mistake: Mistake) -> Vec<Placed> {
    let place = match mistake {
        Mistake::CutByRound => list.iter().rposition(|row| row.1 == last.1),
        _ => list.iter().position(|row| (row.0, row.1) == last),
    };
    let rest = match (place, mistake) {
        (_, Mistake::NotCut) | (None, Mistake::AbsentIsWhole) => list,
        (Some(place), Mistake::CutBefore) => &list[place..],
        (Some(place), _) => &list[place + 1..],
        (None, _) => &[],
    };
    let mut rest = rest.to_vec();
    if mistake == Mistake::RoundZeroStops && rest.iter().any(|row| row.1 == 0 && row.2 == Status::Undecided) {
        return vec![];
    }
    if mistake != Mistake::RoundZeroKept {
        rest.retain(|row| row.1 > 0);
    }
    if mistake == Mistake::UndecidedPassedOver {
        rest.retain(|row| row.2 != Status::Undecided);
    }
    let end = rest.iter().position(|row| row.2 == Status::Undecided).unwrap_or(rest.len());
    rest.truncate(end);
    if mistake == Mistake::SkipsNotReturned {
        rest.retain(|row| row.2 != Status::Skip);
    }
    rest
}
