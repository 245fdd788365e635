//! Single calls (CALLS.md), written from document 01.

mod committees;
mod committers;
mod line;
mod stores;
mod tables;

use crate::Mistake;
use line::Line;

const BAD_COMMITTEE: u64 = 1;
const BAD_OPTIONS: u64 = 2;
const BAD_TABLE: u64 = 3;
const BAD_ARGUMENT: u64 = 4;
const ALREADY_COMMITTED: u64 = 6;
const TWO_CERTIFIED: u64 = 7;
const SHORT_AREA: u64 = 8;

/// The values of a call, or the number of its refusal.
type Answer = Result<Vec<u64>, u64>;

/// The response to a request line, with a mistake.
pub fn respond(line: &str, mistake: Mistake) -> String {
    let line = &mut Line::new(line, mistake);
    let answer = match line.name() {
        name if name.starts_with("authority_set_") => committees::sets(line),
        name if name.starts_with("block_reference_") => committees::references(line),
        name if name.starts_with("committee_") => committees::committee_call(line),
        "aggregator_add" => committees::add(line),
        "aggregator_clear" | "aggregator_voters" => committees::votes(line),
        "threshold_clock_valid" => committees::valid(line),
        "clock_new" => committees::clock_new(line),
        "clock_add_block" => committees::clock_add_block(line),
        "add_block" => stores::add_block(line),
        "missing_blocks" => stores::missing_blocks(line),
        name if name.starts_with("leader_status") => committers::leader_status(line),
        "base_default_options" => Ok(committers::default_options(line)),
        "base_elect_leader" => committers::elect_leader(line),
        "try_direct_decide" => committers::try_direct_decide(line),
        "try_indirect_decide" => committers::try_indirect_decide(line),
        "get_leaders" => committers::get_leaders(line),
        "try_commit" => committers::try_commit(line),
        "handle_commit" => committers::handle_commit(line),
        _ => stores::query(line),
    };
    match answer {
        Ok(values) => values.iter().fold("ok".to_string(), |text, value| format!("{text} {value}")),
        Err(number) => format!("refused {number}"),
    }
}

/// Refuses with this number unless it is so.
fn demand(so: bool, number: u64) -> Result<(), u64> {
    if so {
        Ok(())
    } else {
        Err(number)
    }
}
