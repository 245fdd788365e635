//! Case L of document 01 comes out to the byte.

use harness::program;
use stream::{Block, Header, Reference, Stream};

const EXPECTED: &str = "\
stored 1
pending
stored 2
stored 1
stored 1
commit 0/1: 0/0 0/1
stored 1
commit 0/2: 0/2
";

fn reference(round: u64) -> Reference {
    Reference { authority: 0, round, digest: [0; 4] }
}

fn block(round: u64) -> Block {
    Block { reference: reference(round), includes: (0..round).rev().take(1).map(reference).collect() }
}

#[test]
fn case_l() {
    let header = Header { stakes: vec![1], wave_length: 4, pipelined: true, leaders: 1 };
    let stream = Stream { header, offers: [0, 2, 1, 3, 4, 5].map(block).to_vec() };
    let run = program::run(&stream.bytes(), u64::MAX).expect("a budget without end");
    assert_eq!(run.output, EXPECTED);
}
