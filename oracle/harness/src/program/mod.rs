//! The ordering program (document 01), decided by the original text.

mod marks;

use std::{collections::HashSet, fmt::Write, sync::Arc};

use mysticeti_core::{
    committee::Committee,
    consensus::{
        linearizer::Linearizer,
        universal_committer::{access, UniversalCommitter, UniversalCommitterBuilder},
        LeaderStatus,
    },
    metrics::Metrics,
    threshold_clock::ThresholdClockAggregator,
    types::BlockReference,
};
use stream::{Block, Header};

use crate::{
    budget::Searches,
    limits::{check_options, check_stakes, Refusal},
    offers::{Offers, Room, Verdict},
    positions::{count, examined, Extent, Options},
    reach::Reach,
    reader::{Fault, Reader},
    text::{self, unless_two_certified},
};

pub use marks::REACH;

const ROOM: Room = Room { blocks: 128, includes: 256 };
const MEMORY_ROWS: usize = 128;
const ANSWER_ROWS: u128 = 128;

/// The support searches would cost more steps than the budget has.
#[derive(Debug)]
pub struct OverBudget;

/// What the program prints for a stream, and what the stream reached.
pub struct Run {
    pub output: String,
    pub reach: Reach,
}

/// Runs the program on a stream, within a budget of search steps.
pub fn run(bytes: &[u8], budget: u64) -> Result<Run, OverBudget> {
    let mut reach = Reach::new(REACH);
    let mut reader = Reader::new(bytes);
    reach.mark_if(bytes.is_empty(), "header: no bytes");
    let Some(header) = good_header(&mut reader, &mut reach) else {
        return Ok(Run { output: "bad input\n".to_string(), reach });
    };
    marks::mark_header(&header, &mut reach);
    reach.mark_if(reader.at_end(), "header alone");
    let mut program = Program::new(header, reach, budget);
    while !reader.at_end() && !program.ended {
        match reader.offer() {
            Ok(offer) => program.step(&offer)?,
            Err(fault) => program.bad_offer(fault),
        }
    }
    Ok(Run { output: program.output, reach: program.reach })
}

/// The header, unless it is cut, badly padded or due 1 or 2.
fn good_header(reader: &mut Reader, reach: &mut Reach) -> Option<Header> {
    let header = match reader.header() {
        Ok(header) => header,
        Err(fault) => {
            let cut = fault == Fault::Cut;
            reach.mark(if cut { "header: cut" } else { "header: padding bit set" });
            return None;
        }
    };
    if check_stakes(&header.stakes).is_err() {
        let zero = header.stakes.contains(&0);
        reach.mark(if zero { "header: zero stake" } else { "header: total too high" });
        return None;
    }
    let size = header.stakes.len() as u64;
    if check_options(header.wave_length, header.leaders, size).is_err() {
        let leaders = header.leaders > size;
        reach.mark_if(leaders, "header: more leaders than authorities");
        reach.mark_if(!leaders, "header: wave length too short");
        return None;
    }
    Some(header)
}

/// The program between two offers.
struct Program {
    committee: Arc<Committee>,
    options: Options,
    offers: Offers,
    store: text::Store,
    clock: ThresholdClockAggregator,
    committer: UniversalCommitter,
    metrics: Arc<Metrics>,
    linearizer: Linearizer,
    last_decided: (u64, u64),
    returned_late: HashSet<(u64, u64)>,
    output: String,
    ended: bool,
    steps_left: u64,
    reach: Reach,
}

impl Program {
    fn new(header: Header, reach: Reach, budget: u64) -> Self {
        let committee = text::committee(&header.stakes);
        let store = text::Store::open(text::NOBODY, &committee);
        let metrics = Arc::new(Metrics::default());
        let committer = UniversalCommitterBuilder::new(committee.clone(), store.store.clone(), metrics.clone())
            .with_wave_length(header.wave_length)
            .with_number_of_leaders(header.leaders as usize)
            .with_pipeline(header.pipelined)
            .build();
        Self {
            options: Options { wave_length: header.wave_length, leaders: header.leaders, pipelined: header.pipelined },
            offers: Offers::new(&committee, ROOM),
            store,
            clock: ThresholdClockAggregator::new(0),
            committer,
            metrics,
            linearizer: Linearizer::new(),
            last_decided: (0, 0),
            returned_late: HashSet::new(),
            output: String::new(),
            ended: false,
            steps_left: budget,
            reach,
            committee,
        }
    }

    fn bad_offer(&mut self, fault: Fault) {
        let cut = fault == Fault::Cut;
        self.reach.mark(if cut { "offer: cut" } else { "offer: padding bit set" });
        self.line("bad input");
        self.ended = true;
    }

    /// One offer: its line, then the decisions that follow.
    fn step(&mut self, offer: &Block) -> Result<(), OverBudget> {
        let before = self.offers.stored.len();
        self.mark_before(offer);
        let verdict = self.offers.offer(offer);
        self.mark_after(offer, verdict);
        match verdict {
            Verdict::Stored(growth) => self.line(&format!("stored {growth}")),
            Verdict::Pending => self.line("pending"),
            Verdict::Known => self.line("known"),
            Verdict::Refused(refusal) => self.refused(refusal),
        }
        if matches!(verdict, Verdict::Known | Verdict::Refused(_)) {
            return Ok(());
        }
        self.feed(before);
        self.decide(self.offers.stored.len() - before)
    }

    /// The new rows go to the deciding store and to the clock, in row order.
    fn feed(&mut self, before: usize) {
        for block in &self.offers.stored[before..] {
            self.store.insert(block);
            let round = self.clock.get_round();
            self.clock.add_block(text::reference(&block.reference), &self.committee);
            let moved = self.clock.get_round() > round;
            let higher = block.reference.round > round;
            self.reach.mark_if(moved && higher, "clock: set by a higher block");
            self.reach.mark_if(moved && !higher, "clock: advanced by a quorum");
        }
    }

    fn decide(&mut self, growth: usize) -> Result<(), OverBudget> {
        let statuses = match self.try_commit()? {
            Ok(statuses) => statuses,
            Err(refusal) => {
                self.refused(refusal);
                self.ended = true;
                return Ok(());
            }
        };
        assert!(growth > 0 || statuses.is_empty(), "the text decides more from the same blocks");
        self.reach.mark_if(statuses.len() > 1, "several statuses at once");
        self.print(&statuses);
        if let Some(last) = statuses.last() {
            self.last_decided = (last.authority(), last.round());
            self.reach.mark_if(matches!(last, LeaderStatus::Skip(..)), "last decided is a skip");
        }
        Ok(())
    }

    /// The text's `try_commit` with the clock's round, or document 01's refusal.
    fn try_commit(&mut self) -> Result<Result<Vec<LeaderStatus>, Refusal>, OverBudget> {
        let extent = Extent {
            last_decided: self.last_decided.1,
            highest: self.store.store.highest_round(),
            threshold: self.clock.get_round(),
        };
        if count(self.options, extent) > ANSWER_ROWS {
            self.reach.mark("try_commit refused 8");
            return Ok(Err(Refusal::ShortArea));
        }
        let positions = examined(self.options, extent, self.committee.len() as u64);
        assert_eq!(positions.len() as u128, count(self.options, extent));
        self.spend(&positions)?;
        let remembered: Vec<_> = positions.iter().map(|position| self.decided(*position)).collect();
        let last_decided =
            BlockReference { authority: self.last_decided.0, round: self.last_decided.1, digest: Default::default() };
        let committer = &mut self.committer;
        let outcome = unless_two_certified(|| committer.try_commit(last_decided, extent.threshold));
        let statuses = match outcome {
            Ok(statuses) => statuses,
            Err(rule) => {
                self.mark_two_certified(rule);
                return Ok(Err(Refusal::TwoCertified));
            }
        };
        if access::count(&self.committer) > MEMORY_ROWS {
            self.reach.mark("try_commit refused 5");
            return Ok(Err(Refusal::Full));
        }
        self.mark_decisions(&positions, &remembered, &statuses);
        Ok(Ok(statuses))
    }

    /// Takes the steps of the positions not yet remembered out of the budget.
    fn spend(&mut self, positions: &[(u64, u64)]) -> Result<(), OverBudget> {
        let searches = Searches::new(&self.offers.stored);
        for position in positions {
            if !self.decided(*position) {
                let steps = searches.steps(*position, self.options.wave_length);
                self.steps_left = self.steps_left.checked_sub(steps).ok_or(OverBudget)?;
            }
        }
        Ok(())
    }

    fn decided(&self, (authority, round): (u64, u64)) -> bool {
        access::remembered(&self.committer, authority, round).is_some()
    }

    /// A line for each status, the committed ones with their sub-DAGs.
    fn print(&mut self, statuses: &[LeaderStatus]) {
        let leaders = statuses.iter().filter_map(|status| match status {
            LeaderStatus::Commit(block) => Some(block.clone()),
            _ => None,
        });
        let sub_dags = self.linearizer.handle_commit(&self.store.store, leaders.collect());
        let mut sub_dags = sub_dags.iter();
        for status in statuses {
            let position = format!("{}/{}", status.authority(), status.round());
            if !matches!(status, LeaderStatus::Commit(_)) {
                self.reach.mark("skip line");
                self.line(&format!("skip {position}"));
                continue;
            }
            let blocks = &sub_dags.next().expect("a sub-DAG for each leader").blocks;
            let mut line = format!("commit {position}:");
            for block in blocks {
                write!(line, " {}/{}", block.author(), block.round()).expect("a string takes all");
            }
            self.line(&line);
            self.reach.mark("commit line");
            self.reach.mark_if(blocks.len() >= 4, "sub-DAG of 4 and more");
            let rows = blocks.iter().map(|block| self.offers.row(&text::our_reference(block.reference())));
            self.reach.mark_if(!rows.is_sorted(), "sub-DAG order differs from row order");
        }
    }

    fn refused(&mut self, refusal: Refusal) {
        self.line(&format!("refused {}", refusal.number()));
    }

    fn line(&mut self, line: &str) {
        self.output.push_str(line);
        self.output.push('\n');
    }
}
