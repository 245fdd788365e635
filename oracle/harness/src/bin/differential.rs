//! Compares the programs with the oracle: `differential SEED STREAMS CALLS REPLAY REPLAY_STREAMS ORDER`. REPLAY gets random
//! calls and the small exhaustive ones, REPLAY_STREAMS random streams, each with the oracle's answer, many in one file;
//! ORDER is run by itself on some of the streams. Prints counts and the first differences, and fails if there is any.

use std::{
    env, fs,
    io::{self, BufWriter, Write},
    path::{Path, PathBuf},
    process::{self, Command, ExitCode, Stdio},
    thread,
};

use generator::{exhaustive, requests, streams};
use harness::{budget::STEPS, calls, cases, program};

/// Differences that are printed in full.
const SHOWN: u64 = 3;

/// The calls, or the streams, in one file.
const BATCH: usize = 5_000;

/// One stream of so many is also given to the ordering program as a process of its own.
const ALONE: u64 = 20;

fn main() -> io::Result<ExitCode> {
    let arguments: Vec<String> = env::args().skip(1).collect();
    let numbers: Option<Vec<u64>> = arguments.iter().take(3).map(|word| word.parse().ok()).collect();
    let (Some([seed, streams, calls]), [_, _, _, replay, replay_streams, order]) =
        (numbers.as_deref(), arguments.as_slice())
    else {
        eprintln!("usage: differential SEED STREAMS CALLS REPLAY REPLAY_STREAMS ORDER");
        return Ok(ExitCode::from(2));
    };
    let (replay, replay_streams) = (fs::canonicalize(replay)?, fs::canonicalize(replay_streams)?);
    let random = (0..*calls).map(|index| requests::request(*seed, index).to_string());
    let mut different = compare_calls(&format!("random calls, seed {seed}"), random, &replay)?;
    let small = exhaustive::requests().map(|request| request.to_string());
    different += compare_calls("small calls, all there are", small, &replay)?;
    different += compare_streams(*seed, *streams, &replay_streams, order)?;
    Ok(if different == 0 { ExitCode::SUCCESS } else { ExitCode::FAILURE })
}

/// A request that has an answer, with the oracle's response.
struct Asked {
    request: String,
    response: String,
}

/// The number of requests that `replay` answers otherwise.
fn compare_calls(what: &str, mut requests: impl Iterator<Item = String>, replay: &Path) -> io::Result<u64> {
    let folder = Folder::new()?;
    let (mut compared, mut left_out, mut different) = (0, 0, 0);
    loop {
        let batch: Vec<String> = requests.by_ref().take(BATCH).collect();
        if batch.is_empty() {
            break;
        }
        let count = batch.len();
        let asked = write_cases(batch, &folder.0.join("cases"))?;
        compared += asked.len() as u64;
        left_out += (count - asked.len()) as u64;
        for (case, words) in wrong_cases(replay, &folder.0, asked.len())? {
            different += 1;
            if different <= SHOWN {
                let Asked { request, response } = &asked[case];
                println!("{request}\nreplay: {}\noracle: {response}", cases::response_line(&words));
            }
        }
    }
    println!("{what}: {compared} compared, {left_out} left out, {different} different");
    Ok(different)
}

/// Writes the requests that have an answer, with it.
fn write_cases(requests: Vec<String>, file: &Path) -> io::Result<Vec<Asked>> {
    let mut out = BufWriter::new(fs::File::create(file)?);
    let mut asked = vec![];
    for request in requests {
        let response = calls::respond(&request);
        if let Some(bytes) = cases::call(&request, &response) {
            out.write_all(&bytes)?;
            asked.push(Asked { request, response });
        }
    }
    out.flush()?;
    Ok(asked)
}

/// The cases that a program finds wrong, each with what it says of it.
fn wrong_cases(program: &Path, folder: &Path, count: usize) -> io::Result<Vec<(usize, String)>> {
    let output = Command::new(program).current_dir(folder).output()?;
    let text = String::from_utf8_lossy(&output.stdout);
    let wrong: Vec<_> = text.lines().filter_map(wrong_case).collect();
    let last = format!("{count} cases, {} wrong", wrong.len());
    if output.status.success() && text.lines().last() == Some(&last) {
        Ok(wrong)
    } else {
        let line = text.lines().last().unwrap_or_default();
        Err(io::Error::other(format!("{} ended with {} and the line: {line}", program.display(), output.status)))
    }
}

/// The number of a line `wrong: case NUMBER`, and the words behind it where it goes on with `: WORDS`.
fn wrong_case(line: &str) -> Option<(usize, String)> {
    let rest = line.strip_prefix("wrong: case ")?;
    let (number, words) = rest.split_once(':').unwrap_or((rest, ""));
    Some((number.parse().ok()?, words.trim().to_string()))
}

/// A random stream that has an answer, with its number and what the oracle prints for it.
struct Stream {
    index: u64,
    bytes: Vec<u8>,
    output: String,
}

/// The number of streams for which a program prints something else: `replay_streams` over all of them, `order` by itself
/// over one in `ALONE`.
fn compare_streams(seed: u64, count: u64, replay_streams: &Path, order: &str) -> io::Result<u64> {
    let folder = Folder::new()?;
    let (mut compared, mut alone, mut different) = (0, 0, 0);
    let mut indices = 0..count;
    loop {
        let streams: Vec<Stream> = indices.by_ref().take(BATCH).filter_map(|index| answered(seed, index)).collect();
        if streams.is_empty() && indices.is_empty() {
            break;
        }
        compared += streams.len() as u64;
        let cases: Vec<u8> = streams.iter().flat_map(|s| cases::stream(&s.bytes, s.output.as_bytes())).collect();
        fs::write(folder.0.join("cases"), cases)?;
        for (case, _) in wrong_cases(replay_streams, &folder.0, streams.len())? {
            different += 1;
            show("replay_streams", seed, &streams[case], &output(order, streams[case].bytes.clone())?, different);
        }
        for stream in streams.iter().filter(|stream| stream.index % ALONE == 0) {
            alone += 1;
            let printed = output(order, stream.bytes.clone())?;
            if printed != stream.output.as_bytes() {
                different += 1;
                show("order", seed, stream, &printed, different);
            }
        }
    }
    println!(
        "random streams, seed {seed}: {compared} compared, {alone} of them also alone, {} left out, {different} different",
        count - compared
    );
    Ok(different)
}

/// A random stream with the oracle's output, unless it is over the budget.
fn answered(seed: u64, index: u64) -> Option<Stream> {
    let bytes = streams::case(seed, index).bytes();
    let output = program::run(&bytes, STEPS).ok()?.output;
    Some(Stream { index, bytes, output })
}

/// Prints one of the first differences, with what `order` and the oracle print.
fn show(program: &str, seed: u64, stream: &Stream, printed: &[u8], different: u64) {
    if different <= SHOWN {
        let (index, printed) = (stream.index, String::from_utf8_lossy(printed));
        println!("{program}: stream {index} of seed {seed}\norder:\n{printed}oracle:\n{}", stream.output);
    }
}

/// What the program prints for these bytes. It may end before it has read them all.
fn output(program: &str, bytes: Vec<u8>) -> io::Result<Vec<u8>> {
    let mut child = Command::new(program).stdin(Stdio::piped()).stdout(Stdio::piped()).spawn()?;
    let mut input = child.stdin.take().expect("piped");
    let writer = thread::spawn(move || match input.write_all(&bytes) {
        Err(error) if error.kind() != io::ErrorKind::BrokenPipe => Err(error),
        _ => Ok(()),
    });
    let output = child.wait_with_output()?;
    writer.join().expect("the writer ends")?;
    Ok(output.stdout)
}

/// A folder of our own, removed at the end.
struct Folder(PathBuf);

impl Folder {
    fn new() -> io::Result<Self> {
        let folder = env::temp_dir().join(format!("differential-{}", process::id()));
        fs::create_dir_all(&folder)?;
        Ok(Self(folder))
    }
}

impl Drop for Folder {
    fn drop(&mut self) {
        // What can't be removed stays; the comparison is over.
        let _ = fs::remove_dir_all(&self.0);
    }
}
