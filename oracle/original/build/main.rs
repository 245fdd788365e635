//! Copies the original text byte for byte into the build folder, compares it with SOURCE.sha256, and writes the
//! module tree around it. Refuses, saying how to get the text, when a file is absent or different.

mod sha256;

use std::{
    env, fs,
    path::{Path, PathBuf},
    process,
};

/// Where the text's crate stands in its repository.
const CRATE: &str = "crates/mysticeti-core/src";

/// The text's files that have a module of ours below them, src/access/, for reading and setting private fields.
const WITH_ACCESS: [&str; 3] = ["committee.rs", "threshold_clock.rs", "consensus/universal_committer.rs"];

fn main() {
    let here = PathBuf::from(variable("CARGO_MANIFEST_DIR"));
    let out = PathBuf::from(variable("OUT_DIR")).join("text");
    let list = here.join("../SOURCE.sha256");
    let text = env::var_os("ORIGINAL_TEXT").map(PathBuf::from).unwrap_or_else(|| here.join("../../../shared/docs/src"));
    println!("cargo::rerun-if-env-changed=ORIGINAL_TEXT");
    println!("cargo::rerun-if-changed=build");
    println!("cargo::rerun-if-changed={}", list.display());

    for (hash, path) in entries(&read_to_string(&list)) {
        let source = text.join(&path);
        println!("cargo::rerun-if-changed={}", source.display());
        let name = path
            .strip_prefix(CRATE)
            .and_then(|p| p.strip_prefix('/'))
            .unwrap_or_else(|| refuse(&text, &format!("{path} is not below {CRATE}")));
        copy(&text, &source, &hash, &out, name, &here);
    }
    write(&out.join("modules.rs"), tree().as_bytes());
}

/// The hashes and paths of a list as sha256sum writes it, comments left out.
fn entries(list: &str) -> Vec<(String, String)> {
    list.lines()
        .filter(|line| !line.starts_with('#'))
        .filter_map(|line| line.split_once("  "))
        .map(|(hash, path)| (hash.to_string(), path.to_string()))
        .collect()
}

/// Copies one file, and compares what the copy holds with the hash. A file with an access module is taken in by
/// `include!` from a file of two lines, so that the module can stand below it.
fn copy(text: &Path, source: &Path, hash: &str, out: &Path, name: &str, here: &Path) {
    let bytes = fs::read(source).unwrap_or_else(|error| refuse(text, &format!("{}: {error}", source.display())));
    let mut target = out.join(name);
    if WITH_ACCESS.contains(&name) {
        let copied = target.with_extension("original.rs");
        let access = here.join("src/access").join(target.file_name().expect("a file"));
        println!("cargo::rerun-if-changed={}", access.display());
        write(&target, wrapper(&copied, &access).as_bytes());
        target = copied;
    }
    write(&target, &bytes);
    let copied = fs::read(&target).expect("the copy can be read");
    if sha256::hex(&copied) != hash {
        refuse(text, &format!("{} differs from SOURCE.sha256", source.display()));
    }
}

/// The two items that stand for a file with an access module.
fn wrapper(copied: &Path, access: &Path) -> String {
    format!("include!({copied:?});\n#[path = {access:?}]\npub mod access;\n")
}

/// The module tree: the text's own modules, the text's warnings left to the text.
fn tree() -> String {
    ["types", "committee", "threshold_clock", "block_store", "block_manager", "consensus"]
        .map(|module| format!("#[allow(warnings)]\npub mod {module};\n"))
        .concat()
}

fn write(path: &Path, bytes: &[u8]) {
    fs::create_dir_all(path.parent().expect("a folder")).expect("the build folder can be written");
    fs::write(path, bytes).expect("the build folder can be written");
}

fn read_to_string(path: &Path) -> String {
    fs::read_to_string(path).unwrap_or_else(|error| panic!("{}: {error}", path.display()))
}

fn variable(name: &str) -> String {
    env::var(name).expect("set by cargo")
}

/// Ends the build with what is wrong and how to get the text.
fn refuse(text: &Path, reason: &str) -> ! {
    let lines = [
        format!("the original text is needed, unchanged: {reason}"),
        format!("looked in {}", text.display()),
        "get the repository PasinduTennage/mahi-mahi-consensus at commit 7c928c06bd,".to_string(),
        "and set ORIGINAL_TEXT to its folder (the one that has crates/mysticeti-core/src)".to_string(),
    ];
    for line in lines {
        println!("cargo::error={line}");
    }
    process::exit(1)
}
