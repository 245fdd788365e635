//! A stream on which the text would not finish is left out before the text is asked.

use harness::{budget::STEPS, program};
use stream::{Block, Header, Reference, Stream};

fn reference(round: u64) -> Reference {
    Reference { authority: 0, round, digest: [0; 4] }
}

/// 0/0, 0/1 without includes, then each block includes the one below twice.
fn block(round: u64) -> Block {
    let includes = if round < 2 { vec![] } else { vec![reference(round - 1); 2] };
    Block { reference: reference(round), includes }
}

fn stream(last: u64) -> Vec<u8> {
    let header = Header { stakes: vec![1], wave_length: 63, pipelined: false, leaders: 1 };
    Stream { header, offers: (0..=last).map(block).collect() }.bytes()
}

#[test]
fn doubled_chain_is_left_out() {
    assert!(program::run(&stream(63), STEPS).is_err());
}

#[test]
fn shorter_chain_is_answered() {
    let run = program::run(&stream(62), STEPS).expect("nothing is examined yet");
    assert_eq!(run.output, "stored 1\n".repeat(63));
}
