//! The ordering program.

use stream::{Block, Header};

use crate::{
    blocks::{rows, Row},
    clock::Clock,
    commit::Committer,
    committee::Committee,
    decide::{Placed, Status},
    linear::sub_dag,
    manager::{Manager, Verdict},
    reader::{Bits, Fault},
    Mistake,
};

/// What the program prints for a stream, with a mistake.
pub fn run(bytes: &[u8], mistake: Mistake) -> String {
    let mut bits = Bits::new(bytes, mistake);
    if bytes.is_empty() && mistake == Mistake::EmptyInputSilent {
        return String::new();
    }
    let header = match bits.header() {
        Ok(header) if good_header(&header, mistake) => header,
        _ => return "bad input\n".to_string(),
    };
    if bits.left() == 0 && mistake == Mistake::HeaderAloneBad {
        return "bad input\n".to_string();
    }
    let mut program = Program::new(header, mistake);
    while bits.left() > 0 && !program.ended {
        match bits.offer() {
            Ok(offer) => program.step(&offer),
            Err(Fault::Cut) if mistake == Mistake::CutOfferSilent => break,
            Err(fault) => {
                program.print("bad input".to_string());
                program.ended = fault == Fault::Cut || mistake != Mistake::BadOfferGoesOn;
            }
        }
    }
    program.output
}

fn good_header(header: &Header, mistake: Mistake) -> bool {
    let size = header.stakes.len() as u64;
    let total: u128 = header.stakes.iter().map(|stake| u128::from(*stake)).sum();
    let limit = match mistake {
        Mistake::TotalTooHighAllowed => u128::MAX,
        Mistake::TotalAtLimitRefused => (1 << 63) - 2,
        _ => (1 << 63) - 1,
    };
    let shortest = if mistake == Mistake::WaveThreeAllowed { 3 } else { 4 };
    let longest = if mistake == Mistake::WaveSixtyThreeRefused { 62 } else { 63 };
    let most = if mistake == Mistake::LeadersAboveSizeAllowed { 128 } else { size };
    let positive = header.stakes.iter().all(|stake| *stake > 0) || mistake == Mistake::ZeroStakeAllowed;
    positive && total <= limit && (shortest..=longest).contains(&header.wave_length) && header.leaders <= most
}

struct Program {
    committee: Committee,
    manager: Manager,
    clock: Clock,
    committer: Committer,
    flags: Vec<bool>,
    last: (u64, u64),
    output: String,
    ended: bool,
}

impl Program {
    fn new(header: Header, mistake: Mistake) -> Self {
        let committee = Committee { stakes: header.stakes.clone(), mistake };
        Self {
            manager: Manager::new(committee.size(), 128, 256, mistake),
            clock: Clock::default(),
            committer: Committer { header, memory: vec![], memory_rows: 128, answer_rows: 128 },
            flags: vec![],
            last: (0, 0),
            output: String::new(),
            ended: false,
            committee,
        }
    }

    fn mistake(&self) -> Mistake {
        self.committee.mistake
    }

    fn print(&mut self, line: String) {
        self.output += &line;
        self.output.push('\n');
    }

    fn step(&mut self, offer: &Block) {
        let before = self.manager.stored.len();
        let verdict = self.manager.offer(offer);
        self.print(match verdict {
            Verdict::Stored(growth) => format!("stored {growth}"),
            Verdict::Pending => "pending".to_string(),
            Verdict::Known => "known".to_string(),
            Verdict::Refused(number) => format!("refused {number}"),
        });
        match (verdict, self.mistake()) {
            (Verdict::Refused(5), Mistake::FullEndsProgram) => self.ended = true,
            (Verdict::Known, Mistake::KnownRuns) => self.tick(offer),
            (Verdict::Pending, Mistake::ClockOfPending) => self.tick(offer),
            _ => {}
        }
        if matches!(verdict, Verdict::Stored(_) | Verdict::Pending) {
            self.feed(before);
            self.decide();
        }
    }

    /// The new rows go to the clock, in row order.
    fn feed(&mut self, before: usize) {
        let mut new = self.manager.stored[before..].to_vec();
        match self.mistake() {
            Mistake::ClockOfOfferOnly => new.truncate(1),
            Mistake::ClockInReverse => new.reverse(),
            _ => {}
        }
        new.iter().for_each(|block| self.tick(block));
    }

    fn tick(&mut self, block: &Block) {
        self.clock.add_block(block.reference.authority, block.reference.round, &self.committee);
    }

    fn decide(&mut self) {
        let rows = rows(&self.manager.stored, self.mistake());
        match self.committer.try_commit(&rows, &self.committee, self.last, self.clock.round) {
            Ok(statuses) => self.order(&rows, &statuses),
            Err(number) => {
                self.print(format!("refused {number}"));
                self.ended = self.mistake() != Mistake::RefusalGoesOn;
            }
        }
    }

    fn order(&mut self, rows: &[Row], statuses: &[Placed]) {
        let mistake = self.mistake();
        if mistake == Mistake::FlagsOfCallOnly {
            self.flags.clear();
        }
        for (authority, round, status) in statuses {
            let Status::Commit(leader) = status else {
                self.print(format!("skip {}", self.place(*authority, *round)));
                continue;
            };
            if mistake == Mistake::FlagsOfLeaderOnly {
                self.flags.clear();
            }
            let blocks = sub_dag(rows, *leader, &mut self.flags, mistake);
            let mut line = format!("commit {}:", self.place(*authority, *round));
            for row in blocks {
                line += &format!(" {}", self.place(rows[row].authority, rows[row].round));
            }
            self.print(line);
        }
        let commits = statuses.iter().rev().find(|status| status.2 != Status::Skip);
        let last = if mistake == Mistake::LastIsLastCommit { commits } else { statuses.last() };
        self.last = last.map_or(self.last, |(authority, round, _)| (*authority, *round));
    }

    fn place(&self, authority: u64, round: u64) -> String {
        match self.mistake() {
            Mistake::RoundFirst => format!("{round}/{authority}"),
            _ => format!("{authority}/{round}"),
        }
    }
}
