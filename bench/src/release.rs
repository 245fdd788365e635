//! How long one offer takes that lets in everything that waits. The original is not asked: it takes a stream of its own.

use std::time::Instant;

use crate::{
    dag::{Dag, Shape},
    ours, SEED,
};

/// One authority's blocks are a chain.
const SIZES: [usize; 3] = [1, 4, 16];
const BLOCKS: [usize; 3] = [4_096, 16_384, 65_536];
const TURNS: usize = 3;

pub fn print() {
    println!("\n## One offer that lets in all that waits, in milliseconds\n");
    println!("Table test included, the least of {TURNS} turns. With one authority the blocks are a chain.\n");
    println!("| authorities | waiting blocks | in order | in reverse |\n|---|---|---|---|");
    for size in SIZES {
        for blocks in BLOCKS {
            let dag = Dag::new(Shape { size, blocks, full: true }, SEED).expect("it fits");
            let [forward, back] = [false, true].map(|reverse| least(&dag, reverse));
            println!("| {size} | {} | {forward:.1} | {back:.1} |", blocks - size);
        }
    }
}

/// The least time of some turns.
fn least(dag: &Dag, reverse: bool) -> f64 {
    let stakes = vec![1; dag.shape.size];
    let first = dag.rows[0].reference();
    let before = dag.tables_without_first(reverse);
    let times = (0..TURNS).map(|_| {
        let mut tables = before.clone();
        let start = Instant::now();
        let reply = ours::add_block(&stakes, &mut tables, &first, &[]);
        let time = start.elapsed().as_secs_f64() * 1e3;
        assert_eq!((reply.code, tables.stored, tables.pending), (0, dag.rows.len(), 0));
        time
    });
    times.fold(f64::INFINITY, f64::min)
}
