//! Finds small streams and requests that tell each mistake of the model apart from the oracle:
//! `mutants SEED STREAMS REQUESTS FOLDER`. Writes streams/NUMBER-MISTAKE.stream and .expected, and calls.txt, where a
//! request line is followed by its response; prints the mistakes that nothing tells apart.

use std::{collections::HashSet, env, fs, io, path::Path, process::ExitCode};

use generator::{case::Case, requests, shrink::shrunk, streams};
use harness::{budget::STEPS, calls, program, text::caught};
use model::Mistake;

/// How many requests are kept for each mistake.
const KEPT: usize = 2;

fn main() -> io::Result<ExitCode> {
    let arguments: Vec<String> = env::args().skip(1).collect();
    let numbers: Option<Vec<u64>> = arguments.iter().take(3).map(|word| word.parse().ok()).collect();
    let (Some([seed, streams, requests]), Some(folder)) = (numbers.as_deref(), arguments.get(3)) else {
        eprintln!("usage: mutants SEED STREAMS REQUESTS FOLDER");
        return Ok(ExitCode::from(2));
    };
    let folder = Path::new(folder);
    let mut told = HashSet::new();
    keep_requests(folder, *seed, *requests, &mut told)?;
    keep_streams(folder, *seed, *streams, &mut told)?;
    let all = Mistake::STREAMS.iter().chain(Mistake::CALLS);
    let missed: Vec<_> = all.filter(|mistake| !told.contains(mistake.what())).collect();
    println!("{} of {} mistakes told apart", told.len(), Mistake::STREAMS.len() + Mistake::CALLS.len());
    for mistake in &missed {
        println!("not told apart: {mistake:?}, {}", mistake.what());
    }
    Ok(if missed.is_empty() { ExitCode::SUCCESS } else { ExitCode::FAILURE })
}

/// Requests of all mistakes, shortest first.
fn keep_requests(folder: &Path, seed: u64, count: u64, told: &mut HashSet<&'static str>) -> io::Result<()> {
    let lines = (0..count).map(|index| requests::request(seed, index).to_string());
    let mut pool: Vec<_> = lines.map(|line| (calls::respond(&line), line)).collect();
    pool.retain(|(response, _)| response != "left out");
    pool.sort_by_key(|(_, line)| line.len());
    let mut kept = HashSet::new();
    let mut text = String::new();
    for mistake in Mistake::STREAMS.iter().chain(Mistake::CALLS) {
        let differs = |(response, line): &&(String, String)| {
            caught(|| model::calls::respond(line, *mistake)).as_ref() != Ok(response)
        };
        for (response, line) in pool.iter().filter(differs).take(KEPT) {
            told.insert(mistake.what());
            if kept.insert(line) {
                text += &format!("{line}\n{response}\n");
            }
        }
    }
    fs::create_dir_all(folder)?;
    println!("{} requests kept", kept.len());
    fs::write(folder.join("calls.txt"), text)
}

/// Streams of the mistakes that streams show.
fn keep_streams(folder: &Path, seed: u64, count: u64, told: &mut HashSet<&'static str>) -> io::Result<()> {
    let pool = pool(seed, count);
    let mut kept: Vec<(Mistake, Case)> = vec![];
    for mistake in Mistake::STREAMS {
        for case in telling(&pool, *mistake) {
            told.insert(mistake.what());
            if !kept.iter().any(|(_, other)| *other == case) {
                kept.push((*mistake, case));
            }
        }
    }
    println!("{} streams kept", kept.len());
    write(&folder.join("streams"), &kept)
}

/// Random cases with the oracle's outputs, smallest first.
fn pool(seed: u64, count: u64) -> Vec<(Case, String)> {
    let mut pool: Vec<_> = (0..count)
        .map(|index| streams::case(seed, index))
        .filter_map(|case| expected(&case).map(|output| (case, output)))
        .collect();
    pool.sort_by_cached_key(|(case, _)| case.bytes().len());
    pool
}

/// The oracle's output, unless the case is over the budget.
fn expected(case: &Case) -> Option<String> {
    program::run(&case.bytes(), STEPS).ok().map(|run| run.output)
}

/// The model's output with a mistake, nothing if that makes it panic.
fn mutated(case: &Case, mistake: Mistake) -> Option<String> {
    caught(|| model::program::run(&case.bytes(), mistake)).ok()
}

/// The smallest case on which the mistake shows, and the smallest with another size, wave length or pipeline, both made
/// smaller still.
fn telling(pool: &[(Case, String)], mistake: Mistake) -> Vec<Case> {
    let shows = |case: &Case| expected(case).is_some_and(|output| mutated(case, mistake) != Some(output));
    let kind = |case: &Case| {
        let header = &case.stream.header;
        (header.stakes.len(), header.wave_length, header.pipelined)
    };
    let mut differing =
        pool.iter().filter(|(case, output)| mutated(case, mistake).as_ref() != Some(output)).map(|(case, _)| case);
    let Some(first) = differing.next() else {
        return vec![];
    };
    let second = differing.find(|case| kind(case) != kind(first));
    [Some(first), second].into_iter().flatten().map(|case| shrunk(case.clone(), &shows)).collect()
}

fn write(folder: &Path, kept: &[(Mistake, Case)]) -> io::Result<()> {
    fs::create_dir_all(folder)?;
    let mut index = String::new();
    for (number, (mistake, case)) in kept.iter().enumerate() {
        let name = format!("{number:03}-{mistake:?}");
        let output = expected(case).expect("kept within the budget");
        fs::write(folder.join(format!("{name}.stream")), case.bytes())?;
        fs::write(folder.join(format!("{name}.expected")), &output)?;
        index += &format!("{name}: {} bytes, {}\n", case.bytes().len(), mistake.what());
    }
    fs::write(folder.join("INDEX.txt"), index)
}
