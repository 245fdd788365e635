//! Links the static library that `rt lib` writes in the folder of `exported`.

fn main() {
    let folder = concat!(env!("CARGO_MANIFEST_DIR"), "/../crates/exported/out");
    println!("cargo::rustc-link-search=native={folder}");
    println!("cargo::rustc-link-lib=static=exported");
    println!("cargo::rerun-if-changed={folder}/libexported.a");
}
