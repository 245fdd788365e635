//! The port's calls against the original text, in one process, on the same DAGs. `bench/run` builds and runs it.
//!
//!     bench times [BLOCKS]    the table of times, and of instructions where the machine counts them, up to so many blocks
//!     bench counts            the table of instructions under callgrind
//!     bench release           how long an offer takes that lets in all that waits
//!     bench stack             the stack that each call needs at the largest tables

mod case;
mod dag;
mod meter;
mod original;
mod ours;
mod release;
mod report;
mod stack;

use dag::{Dag, Shape};
use meter::Meter;

const SEED: u64 = 2026;
const SIZES: [usize; 4] = [4, 10, 50, 100];
const BLOCKS: [usize; 3] = [1_000, 10_000, 65_536];
/// Counting makes everything some fifty times as long, the making of the original's DAGs too.
const COUNTED_BLOCKS: [usize; 1] = [1_000];

fn main() {
    match std::env::args().nth(1).as_deref() {
        Some("times") => tables(&Meter::of_the_machine(), &up_to(std::env::args().nth(2))),
        Some("counts") => tables(&Meter::of_callgrind(), &COUNTED_BLOCKS),
        Some("release") => release::print(),
        Some("stack") => stack::print(),
        _ => println!("bench times [BLOCKS] | counts | release | stack"),
    }
}

/// The sizes of the DAGs up to the one named, or all of them.
fn up_to(named: Option<String>) -> Vec<usize> {
    let most = named.map_or(usize::MAX, |number| number.parse().expect("a number of blocks"));
    BLOCKS.into_iter().filter(|blocks| *blocks <= most).collect()
}

fn tables(meter: &Meter, sizes: &[usize]) {
    println!("\n## {}\n", meter.name());
    let mut lines = vec![];
    for size in SIZES {
        for full in [true, false] {
            for &blocks in sizes {
                let shape = Shape { size, blocks, full };
                match Dag::new(shape, SEED).and_then(|dag| case::measured(meter, &dag)) {
                    Ok(measured) => lines.extend(measured),
                    Err(why) => {
                        println!("- left out, and larger ones with it: {shape}: {why}");
                        break;
                    }
                }
            }
        }
    }
    for unit in meter.units() {
        report::print(*unit, &lines);
    }
}
