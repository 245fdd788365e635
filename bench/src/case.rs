//! One DAG, both sides: the calls near its end measured by turns, their answers compared each time.

use std::{fmt::Debug, hint::black_box};

use mysticeti_core::consensus::{linearizer::Linearizer, LeaderStatus};

use crate::{
    dag::{Dag, Shape, Tables},
    meter::{timed, Cost, Meter},
    original::Original,
    ours,
};

const WAVE_LENGTH: u64 = 5;

/// How many of the last offers are measured, and how many calls of try_commit of each kind and of handle_commit.
const OFFERS: usize = 6;
const SAMPLES: usize = 2;

/// What a call cost on both sides, and the table test that ours begins with.
pub struct Line {
    pub call: &'static str,
    pub shape: Shape,
    pub original: Cost,
    pub ours: Cost,
    pub test: Option<Cost>,
}

/// The costs of one call: the original's, ours and the table test's.
type Costs = [Cost; 3];

struct Case<'a> {
    meter: &'a Meter,
    dag: &'a Dag,
    stakes: Vec<u64>,
    original: Original,
    samples: Vec<(&'static str, Costs)>,
}

/// The lines of a DAG, unless its table test takes too long.
pub fn measured(meter: &Meter, dag: &Dag) -> Result<Vec<Line>, String> {
    let size = dag.shape.size;
    let whole = dag.tables(dag.rows.len());
    let (sound, cost) = timed(|| ours::store_is_sound(size as u64, &whole));
    assert!(sound);
    if meter.longest_test() < cost.nanoseconds {
        return Err(format!("one table test takes {:.2} s", cost.nanoseconds / 1e9));
    }
    let original = Original::new(dag, WAVE_LENGTH);
    let mut case = Case { meter, dag, stakes: vec![1; size], original, samples: vec![] };
    let mut lines = case.table_tests(&whole);
    case.run();
    case.queries(&whole);
    lines.extend(case.lines());
    Ok(lines)
}

/// Reads each word once, one after the other.
#[inline(never)]
fn plain_pass(words: &[u64]) -> u64 {
    let mut sum = 0u64;
    for word in words {
        sum = sum.wrapping_add(unsafe { std::ptr::read_volatile(word) });
    }
    sum
}

/// The answers of both sides and the table test by turns; the least cost of each.
fn by_turns<A: PartialEq + Debug>(
    meter: &Meter,
    mut theirs: impl FnMut() -> (A, Cost),
    mut ours: impl FnMut() -> (A, Cost),
    test: impl Fn() -> bool,
) -> Costs {
    let mut costs = [Cost::MOST; 3];
    for _ in 0..meter.turns() {
        let (expected, original) = theirs();
        assert!(test()); // now our tables are near, as the original's were
        let (answer, our) = ours();
        assert_eq!(answer, expected);
        let (sound, test) = meter.measure(&test);
        assert!(sound);
        costs = [costs[0].least(original), costs[1].least(our), costs[2].least(test)];
    }
    costs
}

impl Case<'_> {
    fn size(&self) -> u64 {
        self.dag.shape.size as u64
    }

    /// The table tests against a plain pass over the same memory.
    fn table_tests(&self, t: &Tables) -> Vec<Line> {
        let size = self.size();
        let stored = by_turns(
            self.meter,
            || self.meter.measure(|| black_box(plain_pass(&t.blocks) ^ plain_pass(&t.includes)) | 1 != 0),
            || self.meter.measure(|| ours::store_is_sound(size, t)),
            || true,
        );
        let both = by_turns(
            self.meter,
            || {
                self.meter.measure(|| {
                    let stored = plain_pass(&t.blocks) ^ plain_pass(&t.includes);
                    black_box(stored ^ plain_pass(&t.waiting) ^ plain_pass(&t.named)) | 1 != 0
                })
            },
            || self.meter.measure(|| ours::tables_are_sound(size, t)),
            || true,
        );
        let line =
            |call, costs: Costs| Line { call, shape: self.dag.shape, original: costs[0], ours: costs[1], test: None };
        vec![line("table test", stored), line("table test, both sides", both)]
    }

    /// Offers every row, decides and orders; measures near the end.
    fn run(&mut self) {
        let total = self.dag.rows.len();
        let window = total.saturating_sub(6 * self.dag.shape.size);
        for row in 0..total {
            if total - row <= OFFERS {
                self.offer(row);
            } else {
                let block = self.original.blocks[row].clone();
                assert_eq!(self.original.add_block(block), 1);
            }
            self.original.tick(row);
            let ends_round = self.dag.rounds[self.dag.rows[row].round as usize].end == row + 1;
            if window <= row || ends_round {
                self.decide(row, window <= row);
            }
        }
    }

    /// One offer on both sides.
    fn offer(&mut self, row: usize) {
        let block = self.original.blocks[row].clone();
        let (grown, theirs) = self.meter.measure(|| self.original.add_block(block));
        let mut t = self.dag.tables(row);
        let reference = self.dag.rows[row].reference();
        let includes = &self.dag.rows[row].includes;
        let list: Vec<u64> = includes.iter().flat_map(|i| self.dag.rows[*i].reference()).collect();
        // once on a copy and one more test, so that the stack is there and the tables are near, as the original's are
        ours::add_block(&self.stakes, &mut t.clone(), &reference, &list);
        let tested = || ours::committee_is_sound(&self.stakes) && ours::tables_are_sound(self.size(), &t);
        assert!(tested());
        let (sound, test) = self.meter.measure(tested);
        assert!(sound);
        let (reply, ours) = self.meter.measure(|| ours::add_block(&self.stakes, &mut t, &reference, &list));
        assert_eq!(reply, ours::Reply { code: 0, first: 1, second: grown as u64 });
        assert!(t == self.dag.tables(row + 1));
        self.samples.push(("add_block", [theirs, ours, test]));
    }

    /// Whether a call has been measured often enough.
    fn sampled(&self, call: &str) -> bool {
        SAMPLES <= self.samples.iter().filter(|sample| sample.0 == call).count()
    }

    /// Decides after a row, and orders what was committed.
    fn decide(&mut self, row: usize, near_end: bool) {
        let threshold = self.original.clock.get_round();
        let mut committer = self.original.committer();
        let given = committer.try_commit(self.original.last_decided(), threshold);
        let call = if given.is_empty() { "try_commit, nothing new" } else { "try_commit" };
        let tables = self.dag.tables(row + 1);
        if near_end && !self.sampled(call) {
            let costs = self.try_commit(&tables, threshold);
            self.samples.push((call, costs));
        }
        self.original.settle(&committer, &given);
        let leaders: Vec<_> = given.into_iter().filter_map(LeaderStatus::into_decided_block).collect();
        if near_end && !leaders.is_empty() && !self.sampled("handle_commit") {
            let rows: Vec<u64> = leaders.iter().map(|block| self.original.row(block) as u64).collect();
            let costs = self.handle_commit(&tables, &rows);
            self.samples.push(("handle_commit", costs));
        }
        self.original.linearizer.handle_commit(&self.original.store, leaders);
    }

    /// One call of try_commit from the state that the original is in: the statuses, and the decisions remembered.
    fn try_commit(&self, t: &Tables, threshold: u64) -> Costs {
        let (original, meter) = (&self.original, self.meter);
        let mut memory: Vec<u64> = original.decisions.iter().flat_map(|s| original.status_words(s)).collect();
        let decided = original.decisions.len();
        memory.resize((self.dag.rounds.len() + 8) * 4, 0);
        let fresh = ours::Committer {
            wave_length: WAVE_LENGTH,
            memory,
            decided,
            area: vec![0; 256 * 4],
            work: vec![0; t.stored],
        };
        by_turns(
            meter,
            || {
                let mut committer = original.committer();
                let (given, cost) = meter.measure(|| committer.try_commit(original.last_decided(), threshold));
                let words: Vec<u64> = given.iter().flat_map(|s| original.status_words(s)).collect();
                ((0, words, original.remembered(&committer)), cost)
            },
            || {
                let mut ours = fresh.clone();
                let (reply, cost) = meter.measure(|| ours.try_commit(&self.stakes, t, original.last, threshold));
                ours.area.truncate(reply.first as usize * 4);
                let remembered = ours.remembered(reply.second as usize);
                ((reply.code, ours.area, remembered), cost)
            },
            || ours::committee_is_sound(&self.stakes) && fresh.tables_are_sound(self.size(), t),
        )
    }

    /// One call of handle_commit: the rows of the sub-DAGs, and where each ends.
    fn handle_commit(&self, t: &Tables, leaders: &[u64]) -> Costs {
        let (original, meter) = (&self.original, self.meter);
        let rows = t.blocks.len() / 8;
        let committed = |row: usize| original.linearizer.committed.contains(original.blocks[row].reference());
        let fresh = ours::Linearizer {
            order: vec![0; rows],
            ends: vec![0; leaders.len()],
            work: vec![0; rows],
            flags: (0..rows).map(|row| committed(row) as u8).collect(),
        };
        by_turns(
            meter,
            || {
                let mut linearizer = Linearizer::new();
                linearizer.committed = original.linearizer.committed.clone();
                let blocks = leaders.iter().map(|row| original.blocks[*row as usize].clone()).collect();
                let (dags, cost) = meter.measure(|| linearizer.handle_commit(&original.store, blocks));
                let (mut order, mut ends) = (vec![], vec![]);
                for dag in &dags {
                    order.extend(dag.blocks.iter().map(|block| original.row(block) as u64));
                    ends.push(order.len() as u64);
                }
                ((0, order, ends), cost)
            },
            || {
                let mut ours = fresh.clone();
                let (reply, cost) = meter.measure(|| ours.handle_commit(t, leaders));
                ours.order.truncate(reply.first as usize);
                ((reply.code, ours.order, ours.ends), cost)
            },
            || fresh.tables_are_sound(t),
        )
    }

    /// The queries on the whole DAG: `linked` five rounds back from the last row, and the rows of a round.
    fn queries(&mut self, t: &Tables) {
        let (original, meter) = (&self.original, self.meter);
        let later = t.stored - 1;
        let top = self.dag.rows[later].round as usize;
        let earlier = self.dag.rounds[top - 5].start;
        let mut work = vec![0; t.stored];
        let linked = by_turns(
            meter,
            || {
                let (yes, cost) =
                    meter.measure(|| original.store.linked(&original.blocks[later], &original.blocks[earlier]));
                ((0, yes as u64), cost)
            },
            || {
                let (reply, cost) = meter.measure(|| ours::linked(t, later, earlier, &mut work));
                ((reply.code, reply.first), cost)
            },
            || ours::store_is_sound(128, t),
        );
        let round = top as u64 - 2;
        let mut rows = vec![0; 128];
        let of_round = by_turns(
            meter,
            || {
                let (blocks, cost) = meter.measure(|| original.store.get_blocks_by_round(round));
                let mut rows: Vec<u64> = blocks.iter().map(|block| original.row(block) as u64).collect();
                rows.sort();
                (rows, cost)
            },
            || {
                let (reply, cost) = meter.measure(|| ours::get_blocks_by_round(t, round, &mut rows));
                (rows[..reply.first as usize].to_vec(), cost)
            },
            || ours::store_is_sound(128, t),
        );
        self.samples.push(("linked", linked));
        self.samples.push(("get_blocks_by_round", of_round));
    }

    /// The mean of each call's samples.
    fn lines(&self) -> Vec<Line> {
        let mut calls: Vec<&'static str> = self.samples.iter().map(|sample| sample.0).collect();
        calls.sort();
        calls.dedup();
        let mean = |call: &str, k: usize| {
            let of_call = self.samples.iter().filter(|sample| sample.0 == call);
            Cost::mean(&of_call.map(|sample| sample.1[k]).collect::<Vec<_>>())
        };
        let line = |call| Line {
            call,
            shape: self.dag.shape,
            original: mean(call, 0),
            ours: mean(call, 1),
            test: Some(mean(call, 2)),
        };
        calls.into_iter().map(line).collect()
    }
}
