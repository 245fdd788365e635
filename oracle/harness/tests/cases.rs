//! The recorded cases: the oracle still answers as recorded, and together they tell every mistake apart.

use std::{fs, io, path::PathBuf};

use harness::{calls, cases, program, text::caught};
use model::Mistake;

fn folder() -> PathBuf {
    PathBuf::from(env!("CARGO_MANIFEST_DIR")).join("../cases")
}

/// Streams with their expected outputs.
fn streams() -> Vec<(Vec<u8>, String)> {
    let entries = fs::read_dir(folder().join("streams")).expect("the recorded streams");
    let paths = entries.map(|entry| entry.expect("an entry").path());
    paths
        .filter(|path| path.extension().is_some_and(|extension| extension == "stream"))
        .map(|path| {
            let expected = fs::read_to_string(path.with_extension("expected")).expect("an expected output");
            (fs::read(path).expect("a stream"), expected)
        })
        .collect()
}

/// Requests with their expected responses.
fn requests() -> Vec<(String, String)> {
    let text = fs::read_to_string(folder().join("calls.txt")).expect("the recorded calls");
    let lines: Vec<_> = text.lines().map(str::to_string).collect();
    lines.chunks(2).map(|pair| (pair[0].clone(), pair[1].clone())).collect()
}

#[test]
fn oracle_answers_as_recorded() {
    for (bytes, expected) in streams() {
        assert_eq!(program::run(&bytes, u64::MAX).expect("a budget without end").output, expected);
    }
    for (request, response) in requests() {
        assert_eq!(calls::respond(&request), response, "{request}");
    }
}

#[test]
fn model_answers_as_recorded() {
    for (bytes, expected) in streams() {
        assert_eq!(model::program::run(&bytes, Mistake::Nothing), expected);
    }
    for (request, response) in requests() {
        assert_eq!(model::calls::respond(&request, Mistake::Nothing), response, "{request}");
    }
}

#[test]
fn every_mistake_is_told_apart() {
    let (streams, requests) = (streams(), requests());
    for mistake in Mistake::STREAMS.iter().chain(Mistake::CALLS) {
        let by_request = requests
            .iter()
            .any(|(request, response)| caught(|| model::calls::respond(request, *mistake)).as_ref() != Ok(response));
        let by_stream = || {
            streams.iter().any(|(bytes, output)| caught(|| model::program::run(bytes, *mistake)).as_ref() != Ok(output))
        };
        assert!(by_request || by_stream(), "{mistake:?}");
    }
}

/// Whether the file `cases` of a program is this.
fn has(program: &str, cases: io::Result<Vec<u8>>) -> bool {
    let file = folder().join(format!("../../crates/{program}/data/cases"));
    fs::read(file).expect("the program's cases") == cases.expect("the recorded cases")
}

#[test]
fn programs_have_the_recorded_cases() {
    assert!(has("replay", cases::recorded_calls(&folder())), "make the files again: README.md");
    assert!(has("replay_streams", cases::recorded_streams(&folder())), "make the files again: README.md");
}

#[test]
fn every_call_is_recorded() {
    let requests = requests();
    for name in calls::names() {
        let mut named = requests.iter().map(|(request, _)| request.split(' ').next());
        assert!(named.any(|other| other == Some(name)), "{name}");
    }
}
