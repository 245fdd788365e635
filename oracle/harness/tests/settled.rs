//! Document 01's settled examples, asked as single calls.

use harness::calls::respond;

/// Four stakes of 1 with their floors.
const FOUR: &str = "4 4 1 1 1 1 1 2 0";

#[track_caller]
fn expect(request: &str, response: &str) {
    assert_eq!(respond(request), response, "{request}");
}

#[test]
fn p1_thresholds() {
    expect(&format!("committee_is_quorum {FOUR} 2"), "ok 0");
    expect(&format!("committee_is_quorum {FOUR} 3"), "ok 1");
    expect(&format!("committee_is_valid {FOUR} 1"), "ok 0");
    expect(&format!("committee_is_valid {FOUR} 2"), "ok 1");
}

#[test]
fn p4_total() {
    let limit = (1u64 << 63) - 1;
    expect(&format!("committee_new 1 1 {limit}"), &format!("ok 1 {} {} 0", limit / 3, (u128::from(limit) * 2 / 3)));
    expect(&format!("committee_new 1 1 {}", limit + 1), "refused 1");
}

#[test]
fn p5_waves() {
    expect("base_elect_leader 1 1 1 0 0 0 5 0 2 1 7", "ok 1 0");
    expect("base_elect_leader 1 1 1 0 0 0 5 0 2 1 1", "ok 0 0");
    expect("base_elect_leader 1 1 1 0 0 0 5 0 2 1 6", "ok 0 0");
}

#[test]
fn p6_leaders() {
    expect(&format!("get_leaders {FOUR} 4 2 1 7 2"), "ok 2 2 1 3");
}

#[test]
fn p8_validity() {
    let includes = |authors: [u64; 3]| authors.map(|author| format!(" {author} 2 0 0 0 0")).concat();
    expect(&format!("threshold_clock_valid {FOUR} 3 18 18{}", includes([0, 1, 2])), "ok 1");
    expect(&format!("threshold_clock_valid {FOUR} 3 18 18{}", includes([0, 1, 1])), "ok 0");
}

/// a=0/0, b=1/0, c=0/1 [a,b], d=1/1 [b,a], e=0/2 [c,d].
const P9: &str = "40 40 0 0 0 0 0 0 0 0 1 0 0 0 0 0 0 0 0 1 0 0 0 0 0 2 1 1 0 0 0 0 2 2 0 2 0 0 0 0 4 2 \
                  6 6 0 1 1 0 2 3 5";

#[test]
fn p9_sub_dag() {
    expect(&format!("handle_commit {P9} 5 0 1 1 4 5 1 5"), "ok 5 5 0 1 3 2 4 1 1 5 5 5 1 1 1 1 1");
}

#[test]
fn p10_again() {
    expect(&format!("handle_commit {P9} 5 5 1 1 1 1 1 1 1 4 5 1 5"), "refused 6");
}

#[test]
fn p12_skip() {
    let votes = "0 2 0 0 0 0 0 1 1 2 0 0 0 0 1 1 2 2 0 0 0 0 2 1";
    let (x, y) = ("0 0 0 0 0 1 0 0", "0 0 0 0 0 2 0 0");
    let two = format!("40 40 {x} {y} {votes} 3 0 5");
    let one = format!("32 32 {x} {votes} 3 0 4");
    expect(&format!("try_direct_decide {FOUR} 4 0 0 1 {two} 0 0"), "ok 0 0 2 0");
    expect(&format!("try_direct_decide {FOUR} 4 0 0 1 {one} 0 0"), "ok 0 0 3 0");
}
