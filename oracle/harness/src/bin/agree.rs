//! Compares the model without a mistake to the oracle on random streams and requests: `agree SEED STREAMS REQUESTS`.
//! Prints how many of each were compared, and the first that differs.

use std::{env, process::ExitCode};

use generator::{requests, streams};
use harness::{budget::STEPS, calls, program};
use model::Mistake;

fn main() -> ExitCode {
    let numbers: Option<Vec<u64>> = env::args().skip(1).map(|word| word.parse().ok()).collect();
    let Some([seed, streams, requests]) = numbers.as_deref() else {
        eprintln!("usage: agree SEED STREAMS REQUESTS");
        return ExitCode::from(2);
    };
    let agreed = streams_agree(*seed, *streams) && requests_agree(*seed, *requests);
    if agreed {
        ExitCode::SUCCESS
    } else {
        ExitCode::FAILURE
    }
}

fn streams_agree(seed: u64, count: u64) -> bool {
    let mut compared = 0;
    for index in 0..count {
        let bytes = streams::case(seed, index).bytes();
        let Ok(run) = program::run(&bytes, STEPS) else {
            continue;
        };
        compared += 1;
        let ours = model::program::run(&bytes, Mistake::Nothing);
        if ours != run.output {
            println!("stream {index} of seed {seed} differs\nmodel:\n{ours}oracle:\n{}", run.output);
            return false;
        }
    }
    println!("{compared} streams, no difference");
    true
}

fn requests_agree(seed: u64, count: u64) -> bool {
    let mut compared = 0;
    for index in 0..count {
        let request = requests::request(seed, index).to_string();
        let theirs = calls::respond(&request);
        if theirs == "left out" {
            continue;
        }
        compared += 1;
        let ours = model::calls::respond(&request, Mistake::Nothing);
        if ours != theirs {
            println!("request {index} of seed {seed} differs\n{request}\nmodel:\n{ours}\noracle:\n{theirs}");
            return false;
        }
    }
    println!("{compared} requests, no difference");
    true
}
