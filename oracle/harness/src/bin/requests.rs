//! Prints random requests of single calls, one a line (CALLS.md): `requests SEED COUNT`.

use std::{
    env,
    io::{self, BufWriter, Write},
    process::ExitCode,
};

use generator::requests;

fn main() -> io::Result<ExitCode> {
    let numbers: Option<Vec<u64>> = env::args().skip(1).map(|word| word.parse().ok()).collect();
    let Some([seed, count]) = numbers.as_deref() else {
        eprintln!("usage: requests SEED COUNT");
        return Ok(ExitCode::from(2));
    };
    let mut out = BufWriter::new(io::stdout().lock());
    for index in 0..*count {
        writeln!(out, "{}", requests::request(*seed, index))?;
    }
    out.flush()?;
    Ok(ExitCode::SUCCESS)
}
