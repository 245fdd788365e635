//! How much stack each call needs at the largest tables, by painting the stack below it.

use std::{hint::black_box, thread};

use crate::{
    dag::{Dag, Shape},
    ours::{self, Committer, Linearizer},
    SEED,
};

/// The largest tables: 16 includes a block fill them.
const LARGEST: Shape = Shape { size: 16, blocks: 65_536, full: true };
const INCLUDES: usize = 1_048_576;

/// The longest wave: a vote is searched 61 rounds down.
const WAVE_LENGTH: u64 = 63;

const STACK: usize = 64 << 20;
const PAINTED: usize = 32 << 20;

/// What is not painted, just below: the measurement's own frame stands there.
const MARGIN: usize = 1024;

const PAINT: u8 = 0xa5;

/// Paints the stack below, does the work, and gives the bytes that it needed.
#[inline(never)]
fn below(work: &mut dyn FnMut()) -> usize {
    let mark = 0u8;
    let top = black_box(&mark as *const u8 as usize) - MARGIN;
    let bottom = top - PAINTED;
    for at in bottom..top {
        unsafe { std::ptr::write_volatile(at as *mut u8, PAINT) };
    }
    work();
    let used = (bottom..top).find(|at| unsafe { std::ptr::read_volatile(*at as *const u8) } != PAINT);
    used.map_or(0, |lowest| top - lowest) + MARGIN
}

/// The stack that some work needs, on a thread of its own.
fn stack_of(mut work: impl FnMut() + Send) -> usize {
    thread::scope(|scope| {
        let builder = thread::Builder::new().stack_size(STACK);
        builder.spawn_scoped(scope, || below(&mut work)).expect("a thread").join().expect("the work ends")
    })
}

pub fn print() {
    let dag = Dag::new(LARGEST, SEED).expect("it fits");
    let last = dag.rows.len() - 1;
    let (size, stakes) = (LARGEST.size as u64, vec![1; LARGEST.size]);
    let mut t = dag.tables(last);
    t.includes.resize(INCLUDES, 0);
    t.named.resize(INCLUDES * 6, 0);
    let includes = &dag.rows[last].includes;
    let list: Vec<u64> = includes.iter().flat_map(|i| dag.rows[*i].reference()).collect();
    let reference = dag.rows[last].reference();
    println!("\n## Stack in bytes at {} rows and {INCLUDES} includes\n", dag.rows.len());
    println!("{MARGIN} is what the measurement starts from.\n");
    let show = |call: &str, bytes: usize| println!("- {call}: {bytes}");
    show("add_block", stack_of(|| assert_eq!(ours::add_block(&stakes, &mut t, &reference, &list).code, 0)));
    let mut all = dag.tables_without_first(true);
    let first = dag.rows[0].reference();
    show("add_block, letting in all", stack_of(|| assert_eq!(ours::add_block(&stakes, &mut all, &first, &[]).code, 0)));
    show("table test", stack_of(|| assert!(ours::store_is_sound(size, &t))));
    show("table test, both sides", stack_of(|| assert!(ours::tables_are_sound(size, &t))));

    let top = dag.rows[last].round;
    let mut committer = Committer {
        wave_length: WAVE_LENGTH,
        memory: vec![0; 64 * 4],
        decided: 0,
        area: vec![0; 64 * 4],
        work: vec![0; t.stored],
    };
    let low = top - WAVE_LENGTH - 2;
    show(
        "try_commit",
        stack_of(|| {
            let reply = committer.try_commit(&stakes, &t, (low % size, low), top);
            assert_eq!((reply.code, reply.first), (0, 2));
        }),
    );

    let rows = t.stored;
    let mut linearizer =
        Linearizer { order: vec![0; rows], ends: vec![0; 1], work: vec![0; rows], flags: vec![0; rows] };
    show(
        "handle_commit",
        stack_of(|| {
            let reply = linearizer.handle_commit(&t, &[last as u64]);
            assert_eq!(reply.code, 0);
        }),
    );
    let mut work = vec![0; rows];
    show(
        "linked",
        stack_of(|| {
            let reply = ours::linked(&t, last, 0, &mut work);
            assert_eq!((reply.code, reply.first), (0, 1));
        }),
    );
    let mut of_round = vec![0; 128];
    show("get_blocks_by_round", stack_of(|| assert_eq!(ours::get_blocks_by_round(&t, top, &mut of_round).code, 0)));
}
