//! Single calls of the library (CALLS.md): refusals by document 01 in the order of its table, values by the text.

mod committee;
mod committer;
mod linearizer;
mod manager;
mod request;
mod status;
mod store;
mod tables;
mod threshold_clock;
mod types;

use std::collections::BTreeMap;

use crate::limits::Refusal;
use request::Request;

/// Why a call has no values.
enum Stop {
    Refused(Refusal),
    /// The text would not finish in time.
    LeftOut,
}

impl From<Refusal> for Stop {
    fn from(refusal: Refusal) -> Self {
        Stop::Refused(refusal)
    }
}

/// The values of a call, or why there are none.
type Answer = Result<Vec<u64>, Stop>;

type Call = fn(&mut Request) -> Answer;

/// Every call with the refusals that it can give, in the order of document 01's table.
const CALLS: &[(&str, &[u64], Call)] = &[
    ("authority_set_insert", &[4], types::insert),
    ("authority_set_contains", &[], types::contains),
    ("authority_set_count", &[], types::count),
    ("authority_set_next", &[], types::next),
    ("authority_set_clear", &[], types::clear),
    ("block_reference_cmp", &[], types::compare),
    ("block_reference_equal", &[], types::equal),
    ("block_reference_parts", &[], types::parts),
    ("committee_new", &[1], committee::new),
    ("committee_len", &[1], committee::len),
    ("committee_authorities", &[1], committee::authorities),
    ("committee_get_stake", &[1], committee::get_stake),
    ("committee_known_authority", &[1], committee::known_authority),
    ("committee_thresholds", &[1], committee::thresholds),
    ("committee_is_valid", &[1], committee::is_valid),
    ("committee_is_quorum", &[1], committee::is_quorum),
    ("committee_is_non_zero", &[1], committee::is_non_zero),
    ("committee_get_total_stake", &[1, 4], committee::get_total_stake),
    ("committee_elect_leader", &[1], committee::elect_leader),
    ("aggregator_add", &[1, 3, 4], committee::add),
    ("aggregator_clear", &[], committee::clear),
    ("aggregator_voters", &[], committee::voters),
    ("threshold_clock_valid", &[1, 3, 4], threshold_clock::valid),
    ("clock_new", &[4], threshold_clock::new),
    ("clock_add_block", &[1, 3, 4], threshold_clock::add_block),
    ("get_block", &[3, 4], store::get_block),
    ("block_exists", &[3, 4], store::block_exists),
    ("block_exists_at_authority_round", &[3, 4], store::block_exists_at_authority_round),
    ("all_blocks_exists_at_authority_round", &[3, 4], store::all_blocks_exists_at_authority_round),
    ("get_blocks_by_round", &[3, 4, 8], store::get_blocks_by_round),
    ("get_blocks_at_authority_round", &[3, 4, 8], store::get_blocks_at_authority_round),
    ("get_own_blocks", &[3, 4, 8], store::get_own_blocks),
    ("get_others_blocks", &[3, 4, 8], store::get_others_blocks),
    ("last_own_block_ref", &[3, 4], store::last_own_block_ref),
    ("last_seen_by_authority", &[3, 4], store::last_seen_by_authority),
    ("len_expensive", &[3], store::len_expensive),
    ("highest_round", &[3], store::highest_round),
    ("includes", &[3, 4], store::includes),
    ("linked", &[3, 4, 8], store::linked),
    ("add_block", &[1, 3, 4, 5], manager::add_block),
    ("missing_blocks", &[1, 3, 4, 8], manager::missing_blocks),
    ("leader_status", &[], status::read),
    ("leader_status_into_decided_block", &[4], status::into_decided_block),
    ("leader_status_cmp", &[], status::compare),
    ("base_default_options", &[], committer::default_options),
    ("base_elect_leader", &[1, 2, 4], committer::elect_leader),
    ("try_direct_decide", &[1, 2, 3, 4, 7], committer::try_direct_decide),
    ("try_indirect_decide", &[1, 2, 3, 4, 8, 7], committer::try_indirect_decide),
    ("get_leaders", &[1, 2, 4, 8], committer::get_leaders),
    ("try_commit", &[1, 2, 3, 4, 8, 7, 5], committer::try_commit),
    ("handle_commit", &[3, 4, 8, 6], linearizer::handle_commit),
];

/// The names of all calls, in the order of CALLS.md.
pub fn names() -> impl Iterator<Item = &'static str> {
    CALLS.iter().map(|(name, _, _)| *name)
}

/// The number of a call: its place in that order, from 1 on.
pub fn number(name: &str) -> u64 {
    let place = names().position(|other| other == name);
    place.unwrap_or_else(|| panic!("no call of this name: {name}")) as u64 + 1
}

/// The response to one request line.
pub fn respond(line: &str) -> String {
    let mut request = Request::new(line);
    let (_, _, call) = CALLS
        .iter()
        .find(|(name, _, _)| *name == request.name())
        .unwrap_or_else(|| panic!("no call of this name: {line}"));
    match call(&mut request) {
        Ok(values) => values.iter().fold("ok".to_string(), |line, value| format!("{line} {value}")),
        Err(Stop::Refused(refusal)) => format!("refused {}", refusal.number()),
        Err(Stop::LeftOut) => "left out".to_string(),
    }
}

/// How often each call gave each kind of answer.
#[derive(Default)]
pub struct Tally(BTreeMap<(String, String), u64>);

impl Tally {
    pub fn count(&mut self, request: &str, response: &str) {
        let name = request.split(' ').next().unwrap_or_default();
        let kind = if response.starts_with("ok") { "ok" } else { response };
        *self.0.entry((name.to_string(), kind.to_string())).or_default() += 1;
    }

    /// A line for each call: its name, and each kind of answer with its count.
    pub fn lines(&self) -> String {
        CALLS.iter().map(|(name, refusals, _)| self.line(name, refusals)).collect()
    }

    /// The answers that some call can give and never gave.
    pub fn unreached(&self) -> Vec<String> {
        let due = CALLS
            .iter()
            .flat_map(|(name, refusals, _)| kinds(refusals).into_iter().map(|kind| (name.to_string(), kind)));
        due.filter(|key| !self.0.contains_key(key)).map(|(name, kind)| format!("{name}: {kind}")).collect()
    }

    fn line(&self, name: &str, refusals: &[u64]) -> String {
        let mut line = format!("{name}:");
        let mut kinds = kinds(refusals);
        kinds.push("left out".to_string());
        for kind in kinds {
            let count = self.0.get(&(name.to_string(), kind.clone())).copied().unwrap_or(0);
            if count > 0 || kind != "left out" {
                line += &format!(" {kind} {count},");
            }
        }
        line.pop();
        line + "\n"
    }
}

fn kinds(refusals: &[u64]) -> Vec<String> {
    let refused = refusals.iter().map(|number| format!("refused {number}"));
    std::iter::once("ok".to_string()).chain(refused).collect()
}
