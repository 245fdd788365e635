//! Requests of single calls: mostly sound arguments, often with a thing or two changed.

mod arguments;
mod committees;
mod committers;
mod stores;
mod tables;

pub use arguments::{Argument, Request};
pub use committees::committee_of;
pub use tables::{block_rows, reference_words};

use crate::prng::Prng;

type Maker = fn(&mut Prng) -> Vec<Argument>;

/// Every call, how often it is made, and what makes its arguments.
const CALLS: &[(u64, (&str, Maker))] = &[
    (1, ("authority_set_insert", committees::set_and_authority)),
    (1, ("authority_set_contains", committees::set_and_authority)),
    (1, ("authority_set_count", committees::set)),
    (1, ("authority_set_next", committees::set_and_authority)),
    (1, ("authority_set_clear", committees::set)),
    (2, ("block_reference_cmp", committees::two_references)),
    (1, ("block_reference_equal", committees::two_references)),
    (1, ("block_reference_parts", committees::one_reference)),
    (3, ("committee_new", committees::stakes)),
    (1, ("committee_len", committees::committee)),
    (1, ("committee_authorities", committees::committee)),
    (1, ("committee_get_stake", committees::committee_and_authority)),
    (1, ("committee_known_authority", committees::committee_and_authority)),
    (1, ("committee_thresholds", committees::committee)),
    (2, ("committee_is_valid", committees::committee_and_amount)),
    (2, ("committee_is_quorum", committees::committee_and_amount)),
    (1, ("committee_is_non_zero", committees::committee_and_amount)),
    (2, ("committee_get_total_stake", committees::committee_and_set)),
    (1, ("committee_elect_leader", committees::committee_and_number)),
    (5, ("aggregator_add", committees::vote)),
    (1, ("aggregator_clear", committees::votes)),
    (1, ("aggregator_voters", committees::votes)),
    (4, ("threshold_clock_valid", committees::validity)),
    (1, ("clock_new", committees::clock_round)),
    (5, ("clock_add_block", committees::clock_and_block)),
    (3, ("get_block", stores::with_reference)),
    (2, ("block_exists", stores::with_reference)),
    (2, ("block_exists_at_authority_round", stores::with_position)),
    (2, ("all_blocks_exists_at_authority_round", stores::with_authorities)),
    (2, ("get_blocks_by_round", stores::with_round_and_area)),
    (2, ("get_blocks_at_authority_round", stores::with_position_and_area)),
    (3, ("get_own_blocks", stores::with_own)),
    (3, ("get_others_blocks", stores::with_others)),
    (2, ("last_own_block_ref", stores::with_authority)),
    (1, ("last_seen_by_authority", stores::with_authority)),
    (1, ("len_expensive", stores::store)),
    (1, ("highest_round", stores::store)),
    (2, ("includes", stores::with_row)),
    (6, ("linked", stores::with_two_rows)),
    (10, ("add_block", stores::offer)),
    (5, ("missing_blocks", stores::missing)),
    (1, ("leader_status", committers::one_status)),
    (1, ("leader_status_into_decided_block", committers::one_status)),
    (2, ("leader_status_cmp", committers::two_statuses)),
    (1, ("base_default_options", |_| vec![])),
    (2, ("base_elect_leader", committers::election)),
    (8, ("try_direct_decide", committers::direct)),
    (8, ("try_indirect_decide", committers::indirect)),
    (3, ("get_leaders", committers::leaders)),
    (12, ("try_commit", committers::commit)),
    (6, ("handle_commit", committers::linearize)),
];

/// The most entries of a slice or an area. Programs that answer requests may count on it.
const LONGEST: usize = 8192;

/// The `index`-th request of a run with this seed.
pub fn request(seed: u64, index: u64) -> Request {
    let prng = &mut Prng::new(seed, index);
    let (name, arguments) = prng.weighted(CALLS);
    let mut request = Request { name, arguments: arguments(prng) };
    if prng.chance(30) {
        request.change(prng);
        if prng.chance(30) {
            request.change(prng);
        }
    }
    assert!(request.longest() <= LONGEST, "{request}");
    request
}
