//! Makes random streams and the oracle's output for each: `streams SEED COUNT [FOLDER]`. With a folder it writes
//! NUMBER.stream and NUMBER.expected there. It prints how often each thing was reached, and fails if one never was.

use std::{
    env, fs, io,
    path::{Path, PathBuf},
    process::ExitCode,
};

use generator::streams;
use harness::{
    budget::STEPS,
    program::{self, REACH},
    reach::Reach,
};

fn main() -> io::Result<ExitCode> {
    let arguments: Vec<String> = env::args().skip(1).collect();
    let numbers: Option<Vec<u64>> = arguments.iter().take(2).map(|word| word.parse().ok()).collect();
    let Some([seed, count]) = numbers.as_deref() else {
        eprintln!("usage: streams SEED COUNT [FOLDER]");
        return Ok(ExitCode::from(2));
    };
    let folder = arguments.get(2).map(PathBuf::from);
    if let Some(folder) = &folder {
        fs::create_dir_all(folder)?;
    }
    let mut reach = Reach::new(REACH);
    let mut left_out = 0;
    for index in 0..*count {
        let bytes = streams::case(*seed, index).bytes();
        let Ok(run) = program::run(&bytes, STEPS) else {
            left_out += 1;
            continue;
        };
        reach.merge(&run.reach);
        if let Some(folder) = &folder {
            write(folder, index, &bytes, &run.output)?;
        }
    }
    print!("{}", reach.lines());
    println!("{:>10}  streams answered, seed {seed}", count - left_out);
    println!("{left_out:>10}  left out, over {STEPS} search steps");
    Ok(verdict(&reach))
}

fn write(folder: &Path, index: u64, bytes: &[u8], output: &str) -> io::Result<()> {
    fs::write(folder.join(format!("{index:06}.stream")), bytes)?;
    fs::write(folder.join(format!("{index:06}.expected")), output)
}

fn verdict(reach: &Reach) -> ExitCode {
    let unreached = reach.unreached();
    for name in &unreached {
        println!("never reached: {name}");
    }
    if unreached.is_empty() {
        ExitCode::SUCCESS
    } else {
        ExitCode::FAILURE
    }
}
