//! Cases for the programs `replay` and `replay_streams`: calls with their responses, in words of eight bytes, and streams
//! with what the ordering program must print. The most significant byte comes first.

use std::{fs, io, path::Path};

use crate::calls;

/// The most words of a request or a response that `replay` takes.
const MOST_WORDS: usize = 16_384;

/// The most bytes of a stream that `replay_streams` takes.
const MOST_STREAM_BYTES: usize = 262_144;

/// The most bytes of a text that `replay_streams` takes.
const MOST_TEXT_BYTES: usize = 32_768;

/// Before the values of a response.
const OK: u64 = 1;

/// Before the number of a refusal.
const REFUSED: u64 = 2;

/// The bytes of a call: its number, how many words its request has, the words, how many its response has, the words. A
/// request that was left out is no case.
pub fn call(request: &str, response: &str) -> Option<Vec<u8>> {
    let (name, arguments) = split(request);
    let (kind, values) = split(response);
    let first = match kind {
        "ok" => OK,
        "refused" => REFUSED,
        _ => return None,
    };
    let mut bytes = calls::number(name).to_be_bytes().to_vec();
    put_words(&mut bytes, &numbers(arguments));
    put_words(&mut bytes, &[&[first], &numbers(values)[..]].concat());
    Some(bytes)
}

/// A response of these words, as a line. No words are what `replay` answers when an area or a table is not as it must be.
pub fn response_line(words: &str) -> String {
    let (first, values) = split(words);
    let kind = match first.parse() {
        Ok(OK) => "ok",
        Ok(REFUSED) => "refused",
        _ => return "an area, a table or a state is not as it must be".to_string(),
    };
    format!("{kind} {values}").trim_end().to_string()
}

/// The bytes of a stream: its length and that of the text in four bytes each, the stream, the text.
pub fn stream(bytes: &[u8], text: &[u8]) -> Vec<u8> {
    let lengths = [length(bytes, MOST_STREAM_BYTES), length(text, MOST_TEXT_BYTES)].concat();
    [&lengths[..], bytes, text].concat()
}

/// The cases of the recorded calls in a folder: lines of a request and its response in turn.
pub fn recorded_calls(folder: &Path) -> io::Result<Vec<u8>> {
    let text = fs::read_to_string(folder.join("calls.txt"))?;
    let lines: Vec<&str> = text.lines().collect();
    Ok(lines.chunks(2).filter_map(|pair| call(pair[0], pair[1])).flatten().collect())
}

/// The cases of the recorded streams in a folder, in the order of their names.
pub fn recorded_streams(folder: &Path) -> io::Result<Vec<u8>> {
    let entries = fs::read_dir(folder.join("streams"))?;
    let mut paths = entries.map(|entry| entry.map(|entry| entry.path())).collect::<io::Result<Vec<_>>>()?;
    paths.retain(|path| path.extension().is_some_and(|extension| extension == "stream"));
    paths.sort();
    let mut cases = vec![];
    for path in paths {
        cases.extend(stream(&fs::read(&path)?, &fs::read(path.with_extension("expected"))?));
    }
    Ok(cases)
}

/// The first word of a line, and the rest.
fn split(line: &str) -> (&str, &str) {
    line.split_once(' ').unwrap_or((line, ""))
}

fn numbers(words: &str) -> Vec<u64> {
    words.split_whitespace().map(|word| word.parse().expect("a number")).collect()
}

/// A number of words, then the words.
fn put_words(bytes: &mut Vec<u8>, words: &[u64]) {
    assert!(words.len() <= MOST_WORDS, "{} words are too many for replay", words.len());
    bytes.extend((words.len() as u64).to_be_bytes());
    words.iter().for_each(|word| bytes.extend(word.to_be_bytes()));
}

/// How many bytes there are, in four bytes.
fn length(bytes: &[u8], most: usize) -> [u8; 4] {
    assert!(bytes.len() <= most, "{} bytes are too many for replay_streams", bytes.len());
    (bytes.len() as u32).to_be_bytes()
}
