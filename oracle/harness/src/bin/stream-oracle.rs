//! Reads a stream of the ordering program on standard input and prints what the program must print.

use std::io::{self, Read, Write};

use harness::program;

fn main() -> io::Result<()> {
    let mut bytes = vec![];
    io::stdin().read_to_end(&mut bytes)?;
    let run = program::run(&bytes, u64::MAX).expect("a budget without end");
    io::stdout().write_all(run.output.as_bytes())
}
