//! Turns recorded cases into the files that the programs `replay` and `replay_streams` read: `cases FOLDER CALLS STREAMS`.

use std::{
    env, fs, io,
    path::{Path, PathBuf},
    process::ExitCode,
};

use harness::cases;

fn main() -> io::Result<ExitCode> {
    let arguments: Vec<PathBuf> = env::args().skip(1).map(PathBuf::from).collect();
    let [folder, calls, streams] = arguments.as_slice() else {
        eprintln!("usage: cases FOLDER CALLS STREAMS");
        return Ok(ExitCode::from(2));
    };
    write(calls, cases::recorded_calls(folder)?)?;
    write(streams, cases::recorded_streams(folder)?)?;
    Ok(ExitCode::SUCCESS)
}

/// Writes a file, and makes the folder that it stands in.
fn write(file: &Path, bytes: Vec<u8>) -> io::Result<()> {
    fs::create_dir_all(file.parent().unwrap_or(Path::new(".")))?;
    fs::write(file, bytes)
}
