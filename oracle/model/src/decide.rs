//! Support, votes, certificates, and the direct and the indirect rule.

use std::collections::BTreeSet;

use crate::{
    blocks::{at, linked, of_round, reaches, Row},
    committee::Committee,
    Mistake,
};

/// More than one certified block: refusal 7.
pub struct TwoCertified;

/// What is known of a position.
#[derive(Clone, Copy, Debug, PartialEq, Eq)]
pub enum Status {
    Commit(usize),
    Skip,
    Undecided,
}

/// A status with its authority and round.
pub type Placed = (u64, u64, Status);

/// The stored rows seen by one committer.
pub struct Decider<'a> {
    pub rows: &'a [Row],
    pub committee: &'a Committee,
    pub wave_length: u64,
    pub pipelined: bool,
}

/// One position with what each row supports there.
struct Position<'a, 'b> {
    decider: &'a Decider<'b>,
    round: u64,
    leaders: Vec<usize>,
    support: Vec<Option<usize>>,
}

impl Decider<'_> {
    fn mistake(&self) -> Mistake {
        self.committee.mistake
    }

    fn voting_round(&self, round: u64) -> u64 {
        match self.mistake() {
            Mistake::VotingRoundEarlier => round + self.wave_length - 3,
            Mistake::VotingRoundLater => round + self.wave_length - 1,
            _ => round + self.wave_length - 2,
        }
    }

    fn decision_round(&self, round: u64) -> u64 {
        match self.mistake() {
            Mistake::DecisionRoundEarlier => round + self.wave_length - 2,
            Mistake::DecisionRoundLater => round + self.wave_length,
            _ => round + self.wave_length - 1,
        }
    }

    fn position(&self, authority: u64, round: u64) -> Position<'_, '_> {
        let leaders = at(self.rows, authority, round);
        let support = self.support(&leaders, round);
        Position { decider: self, round, leaders, support }
    }

    /// For each row the leader block that it supports.
    fn support(&self, leaders: &[usize], round: u64) -> Vec<Option<usize>> {
        let mut support: Vec<Option<usize>> = vec![];
        for (row, block) in self.rows.iter().enumerate() {
            let found = if block.round > round {
                self.found(block, leaders, round, &support)
            } else {
                Some(row).filter(|row| self.mistake() == Mistake::SupportOfSelf && leaders.contains(row))
            };
            support.push(found);
        }
        support
    }

    /// What a block's includes find first.
    fn found(&self, block: &Row, leaders: &[usize], round: u64, support: &[Option<usize>]) -> Option<usize> {
        let mistake = self.mistake();
        let mut includes = block.includes.clone();
        includes.retain(|include| self.rows[*include].round >= round);
        match mistake {
            Mistake::SupportLast => includes.reverse(),
            Mistake::SupportByRow => includes.sort(),
            Mistake::SupportStrongOnly => includes.retain(|include| self.rows[*include].round + 1 == block.round),
            _ => {}
        }
        let direct = |include: &usize| Some(*include).filter(|include| leaders.contains(include));
        if mistake == Mistake::SupportDirectOnly {
            return includes.iter().find_map(direct);
        }
        if mistake == Mistake::SupportDirectFirst {
            let first = includes.iter().find_map(direct);
            return first.or_else(|| includes.iter().find_map(|include| support[*include]));
        }
        includes.iter().find_map(|include| direct(include).or(support[*include]))
    }

    /// The direct rule.
    pub fn direct(&self, authority: u64, round: u64) -> Result<Status, TwoCertified> {
        let position = self.position(authority, round);
        let skips = position.skipped();
        if skips && self.mistake() != Mistake::SkipAfterCommit {
            return Ok(Status::Skip);
        }
        let certified = position.leaders.iter().copied().filter(|leader| position.enough(*leader));
        let tolerant = self.mistake() == Mistake::TwoCertifiedOnlyIndirect;
        match self.single(certified.collect(), tolerant)? {
            Some(status) => Ok(status),
            None if skips => Ok(Status::Skip),
            None => Ok(Status::Undecided),
        }
    }

    /// The one certified block as a status.
    fn single(&self, certified: Vec<usize>, tolerant: bool) -> Result<Option<Status>, TwoCertified> {
        if certified.len() > 1 {
            match self.mistake() {
                Mistake::TwoCertifiedSkipped => return Ok(Some(Status::Skip)),
                Mistake::LastOfTwoCertified => return Ok(certified.last().copied().map(Status::Commit)),
                Mistake::FirstOfTwoCertified => {}
                _ if tolerant => {}
                _ => return Err(TwoCertified),
            }
        }
        Ok(certified.first().copied().map(Status::Commit))
    }

    /// The indirect rule, over later statuses in list order.
    pub fn indirect(&self, authority: u64, round: u64, later: &[Placed]) -> Result<Status, TwoCertified> {
        let mistake = self.mistake();
        let from = match mistake {
            Mistake::AnchorAtDecisionRound => round + self.wave_length - 1,
            Mistake::AnchorAbove => round + self.wave_length + 1,
            _ => round + self.wave_length,
        };
        let mut anchors: Vec<_> = later.iter().filter(|(_, round, _)| *round >= from).collect();
        match mistake {
            Mistake::IndirectNever => return Ok(Status::Undecided),
            Mistake::AnchorHighestFirst => anchors.reverse(),
            Mistake::AnchorLastOfRound => {
                anchors.reverse();
                anchors.sort_by_key(|(_, round, _)| *round);
            }
            _ => {}
        }
        for (_, _, status) in anchors {
            match status {
                Status::Commit(anchor) => return self.by_anchor(*anchor, authority, round),
                Status::Skip if mistake == Mistake::AnchorSkipStops => break,
                Status::Undecided if mistake != Mistake::AnchorPastUndecided => break,
                _ => {}
            }
        }
        Ok(Status::Undecided)
    }

    /// Commits what a certificate linked to the anchor certifies, or skips.
    fn by_anchor(&self, anchor: usize, authority: u64, round: u64) -> Result<Status, TwoCertified> {
        let mistake = self.mistake();
        let position = self.position(authority, round);
        let linked_to = |row: &usize| mistake == Mistake::AnchorUnlinked || linked(self.rows, anchor, *row, mistake);
        let certificates: Vec<_> =
            of_round(self.rows, self.decision_round(round)).into_iter().filter(linked_to).collect();
        let certified = |leader: &usize| match mistake {
            Mistake::AnchorLinksLeader => linked(self.rows, anchor, *leader, mistake),
            Mistake::AnchorNeedsQuorum => {
                let certifying = certificates.iter().filter(|row| position.certifies(**row, *leader));
                let authors = certifying.map(|row| self.rows[*row].authority);
                self.committee.is_quorum(self.committee.stake_of(authors, false))
            }
            _ => certificates.iter().any(|row| position.certifies(*row, *leader)),
        };
        let chosen = position.leaders.iter().copied().filter(certified).collect();
        let tolerant = mistake == Mistake::TwoCertifiedOnlyDirect;
        let otherwise = match mistake {
            Mistake::AnchorUncertifiedUndecided => Status::Undecided,
            _ => Status::Skip,
        };
        Ok(self.single(chosen, tolerant)?.unwrap_or(otherwise))
    }
}

impl Position<'_, '_> {
    fn votes(&self, row: usize, leader: usize) -> bool {
        match self.decider.mistake() {
            Mistake::VoteForEveryReached => {
                let rows = self.decider.rows;
                rows[row].round > self.round && row > leader && reaches(rows, row, leader)
            }
            Mistake::VoteIgnoresTwin => self.support[row].is_some(),
            _ => self.support[row] == Some(leader),
        }
    }

    fn quorum_of(&self, rows: impl Iterator<Item = usize>, twice: Mistake) -> bool {
        let committee = self.decider.committee;
        let authors = rows.map(|row| self.decider.rows[row].authority);
        committee.is_quorum(committee.stake_of(authors, committee.mistake == twice))
    }

    /// Whether the votes among a row's includes are a quorum.
    fn certifies(&self, row: usize, leader: usize) -> bool {
        let decider = self.decider;
        let voting = decider.voting_round(self.round);
        let votes = decider.rows[row].includes.iter().copied().filter(|include| self.votes(*include, leader));
        match decider.mistake() {
            Mistake::CertificateIsVote => self.votes(row, leader),
            Mistake::CertificateOneVote => votes.count() > 0,
            Mistake::CertificateOfVotingRound => {
                let votes = votes.filter(|include| decider.rows[*include].round == voting);
                self.quorum_of(votes, Mistake::CertificateTwinsTwice)
            }
            _ => self.quorum_of(votes, Mistake::CertificateTwinsTwice),
        }
    }

    /// Whether a quorum of decision-round authors certify the leader block.
    fn enough(&self, leader: usize) -> bool {
        let decider = self.decider;
        let decision = of_round(decider.rows, decider.decision_round(self.round));
        let certificates = decision.into_iter().filter(|row| self.certifies(*row, leader));
        match decider.mistake() {
            Mistake::CommitOneCertificate => certificates.count() > 0,
            Mistake::CommitValidCertificates => {
                let authors = certificates.map(|row| decider.rows[row].authority);
                decider.committee.is_valid(decider.committee.stake_of(authors, false))
            }
            _ => self.quorum_of(certificates, Mistake::CommitTwinsTwice),
        }
    }

    fn skipped(&self) -> bool {
        let decider = self.decider;
        let mistake = decider.mistake();
        if mistake == Mistake::NeverSkipDirectly {
            return false;
        }
        if !decider.pipelined && mistake != Mistake::SkipWithoutPipeline {
            return false;
        }
        let voting = of_round(decider.rows, decider.voting_round(self.round));
        let quorum = self.quorum_of(voting.iter().copied(), Mistake::SkipTwinsTwice);
        if self.leaders.is_empty() {
            return match mistake {
                Mistake::SkipNeedsLeaderBlock => false,
                Mistake::SkipWithoutQuorum => true,
                _ => quorum,
            };
        }
        let mut blamed = self.leaders.iter().map(|leader| self.blamed(&voting, *leader));
        quorum && if mistake == Mistake::SkipNeedsEveryBlock { blamed.all(|b| b) } else { blamed.any(|b| b) }
    }

    /// Whether a quorum of authors has a voting block that doesn't vote for the leader block.
    fn blamed(&self, voting: &[usize], leader: usize) -> bool {
        let decider = self.decider;
        let author = |row: &usize| decider.rows[*row].authority;
        let blames = voting.iter().copied().filter(|row| !self.votes(*row, leader));
        match decider.mistake() {
            Mistake::SkipNeedsAllBlocksOfAuthor => {
                let voters: BTreeSet<_> = voting.iter().filter(|row| self.votes(**row, leader)).map(author).collect();
                self.quorum_of(blames.filter(|row| !voters.contains(&author(row))), Mistake::SkipTwinsTwice)
            }
            Mistake::SkipByAbsence => {
                let present: BTreeSet<_> = voting.iter().map(author).collect();
                let absent = (0..decider.committee.size()).filter(|authority| !present.contains(authority));
                let blaming = blames.map(|row| author(&row)).chain(absent);
                decider.committee.is_quorum(decider.committee.stake_of(blaming, false))
            }
            _ => self.quorum_of(blames, Mistake::SkipTwinsTwice),
        }
    }
}
