//! Sub-DAGs.

use std::collections::VecDeque;

use crate::{blocks::Row, Mistake};

/// The sub-DAG of a leader row, given and changing the flags.
pub fn sub_dag(rows: &[Row], leader: usize, flags: &mut Vec<bool>, mistake: Mistake) -> Vec<usize> {
    flags.resize(rows.len(), false);
    let mut order = walk(rows, leader, flags, mistake);
    match mistake {
        Mistake::SortMissing => {}
        Mistake::SortByAuthority => order.sort_by_key(|row| (rows[*row].round, rows[*row].authority)),
        Mistake::SortDescending => order.sort_by_key(|row| std::cmp::Reverse(rows[*row].round)),
        Mistake::SortUnstable => {
            order.reverse();
            order.sort_by_key(|row| rows[*row].round);
        }
        _ => order.sort_by_key(|row| rows[*row].round),
    }
    order
}

/// The stack walk, flagging at entry.
fn walk(rows: &[Row], leader: usize, flags: &mut [bool], mistake: Mistake) -> Vec<usize> {
    let late = mistake == Mistake::FlagAtRemoval;
    let mut order = vec![];
    let mut stack = VecDeque::from([leader]);
    flags[leader] = !late;
    while let Some(row) = next(&mut stack, mistake) {
        order.push(row);
        flags[row] = true;
        if mistake == Mistake::LeaderAlone && row != leader {
            continue;
        }
        let mut includes = rows[row].includes.clone();
        if mistake == Mistake::StackReversed {
            includes.reverse();
        }
        for include in includes {
            if !flags[include] {
                flags[include] = !late;
                stack.push_back(include);
            }
        }
    }
    order
}

fn next(stack: &mut VecDeque<usize>, mistake: Mistake) -> Option<usize> {
    if mistake == Mistake::QueueForStack {
        stack.pop_front()
    } else {
        stack.pop_back()
    }
}
