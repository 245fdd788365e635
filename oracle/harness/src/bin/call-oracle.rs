//! Reads request lines (CALLS.md) on standard input and prints a response line for each. With the argument `tally` it
//! prints instead how often each call gave each kind of answer, and fails if one that it can give never came.

use std::{
    env,
    io::{self, BufRead, BufWriter, Write},
    process::ExitCode,
};

use harness::calls::{respond, Tally};

fn main() -> io::Result<ExitCode> {
    if env::args().nth(1).as_deref() == Some("tally") {
        return tally();
    }
    let mut out = BufWriter::new(io::stdout().lock());
    for line in io::stdin().lock().lines() {
        writeln!(out, "{}", respond(&line?))?;
    }
    out.flush()?;
    Ok(ExitCode::SUCCESS)
}

fn tally() -> io::Result<ExitCode> {
    let mut tally = Tally::default();
    for line in io::stdin().lock().lines() {
        let line = line?;
        tally.count(&line, &respond(&line));
    }
    print!("{}", tally.lines());
    let unreached = tally.unreached();
    for answer in &unreached {
        println!("never given: {answer}");
    }
    Ok(if unreached.is_empty() { ExitCode::SUCCESS } else { ExitCode::FAILURE })
}
