//! All requests of a few small shapes: committees, aggregators and clocks of up to three authorities, links and sub-DAGs
//! of five blocks, direct decisions of seven.

use stream::{Block, Reference};

use crate::requests::{
    block_rows, committee_of,
    Argument::{self, Area, Number, Slice},
    Request,
};

pub fn requests() -> impl Iterator<Item = Request> {
    committees().chain(walks()).chain(decisions())
}

fn request(name: &'static str, arguments: Vec<Argument>) -> Request {
    Request { name, arguments }
}

/// Arguments, then numbers.
fn with(arguments: &[Argument], numbers: &[u64]) -> Vec<Argument> {
    arguments.iter().cloned().chain(numbers.iter().copied().map(Number)).collect()
}

/// The calls of each committee of at most three authorities whose stakes are 1 to 3.
fn committees() -> impl Iterator<Item = Request> {
    (1..=3).flat_map(|size| products(&vec![3; size])).flat_map(|choice| {
        let stakes: Vec<u64> = choice.iter().map(|stake| *stake as u64 + 1).collect();
        [of_committee(&stakes), of_votes(&stakes)].concat()
    })
}

fn of_committee(stakes: &[u64]) -> Vec<Request> {
    let (committee, size) = (committee_of(stakes), stakes.len() as u64);
    let mut made = vec![];
    for name in ["committee_len", "committee_authorities", "committee_thresholds"] {
        made.push(request(name, committee.clone()));
    }
    for amount in 0..=stakes.iter().sum::<u64>() + 1 {
        for name in ["committee_is_valid", "committee_is_quorum", "committee_is_non_zero"] {
            made.push(request(name, with(&committee, &[amount])));
        }
    }
    for number in 0..=2 * size {
        for name in ["committee_get_stake", "committee_known_authority", "committee_elect_leader"] {
            made.push(request(name, with(&committee, &[number])));
        }
    }
    for voters in 0..2 << size {
        made.push(request("committee_get_total_stake", with(&committee, &[voters, 0])));
    }
    made
}

/// Votes for each set of voters that a committee has.
fn of_votes(stakes: &[u64]) -> Vec<Request> {
    let (committee, size) = (committee_of(stakes), stakes.len() as u64);
    let mut made = vec![];
    for voters in 0..1u64 << size {
        let held = stakes.iter().enumerate().filter(|(authority, _)| voters >> authority & 1 == 1);
        let votes = [voters, 0, held.map(|(_, stake)| stake).sum()];
        for authority in 0..=size {
            for threshold in 0..3 {
                let arguments = [&[Number(threshold)], &with(&committee, &votes)[..], &[Number(authority)]].concat();
                made.push(request("aggregator_add", arguments));
            }
            for round in 1..=3 {
                let numbers = [&votes[..], &[2, authority, round]].concat();
                made.push(request("clock_add_block", with(&committee, &numbers)));
            }
        }
    }
    made
}

/// Links between all blocks, and sub-DAGs past all flags, of each DAG of two authorities' blocks in rounds 0 and 1 and
/// one block above. Includes stand in every order.
fn walks() -> impl Iterator<Item = Request> {
    let positions = [(0, 0, 0), (1, 0, 0), (0, 1, 0), (1, 1, 0), (0, 2, 0)];
    let may_include: [&[usize]; 5] = [&[], &[], &[0, 1], &[0, 1], &[0, 1, 2, 3]];
    dags(positions.to_vec(), may_include.iter().map(|rows| lists(rows)).collect()).flat_map(|blocks| {
        let stored = stored_side(&blocks);
        let pairs = products(&[5, 5]);
        let linked = pairs.iter().map(|pair| {
            let rows = [pair[0] as u64, pair[1] as u64];
            request("linked", [with(&stored, &rows), vec![Area(5)]].concat())
        });
        let flagged = products(&[2; 4]);
        let sub_dags = flagged.iter().map(|flags| {
            let flags = flags.iter().map(|flag| *flag as u64).chain([0]).collect();
            let rest = vec![Slice(flags), Slice(vec![4]), Area(5), Area(1), Area(5)];
            request("handle_commit", [stored.clone(), rest].concat())
        });
        linked.chain(sub_dags).collect::<Vec<_>>()
    })
}

/// Direct decisions on a leader with a twin, over each DAG of one block between them and two voting blocks, and two
/// deciding blocks. One of the authorities is a quorum, or both are.
fn decisions() -> impl Iterator<Item = Request> {
    let positions = [(0, 0, 0), (0, 0, 1), (0, 1, 0), (0, 2, 0), (1, 2, 0), (0, 3, 0), (1, 3, 0)];
    let may_include: [&[usize]; 7] = [&[], &[], &[0, 1], &[0, 1, 2], &[1, 2], &[3, 4], &[3, 4]];
    dags(positions.to_vec(), may_include.iter().map(|rows| lists(rows)).collect()).flat_map(|blocks| {
        let stored = stored_side(&blocks);
        products(&[2, 2]).into_iter().map(move |choice| {
            let committee = committee_of(if choice[0] == 0 { &[1, 1] } else { &[3, 1] });
            let options = with(&committee, &[4, 0, 0, choice[1] as u64]);
            request("try_direct_decide", with(&[options, stored.clone()].concat(), &[0, 0]))
        })
    })
}

/// Each DAG of blocks at these positions (authority, round, last digest word), each with one of its lists of includes.
fn dags(positions: Vec<(u64, u64, u64)>, choices: Vec<Vec<Vec<usize>>>) -> impl Iterator<Item = Vec<Block>> {
    let references: Vec<Reference> = positions
        .iter()
        .map(|(authority, round, word)| Reference { authority: *authority, round: *round, digest: [0, 0, 0, *word] })
        .collect();
    let sizes: Vec<usize> = choices.iter().map(Vec::len).collect();
    products(&sizes).into_iter().map(move |choice| {
        let lists = choice.iter().zip(&choices).map(|(which, lists)| &lists[*which]);
        let includes = lists.map(|rows| rows.iter().map(|row| references[*row]).collect());
        references.iter().zip(includes).map(|(reference, includes)| Block { reference: *reference, includes }).collect()
    })
}

/// The stored side of these blocks, with no room left.
fn stored_side(blocks: &[Block]) -> Vec<Argument> {
    let row =
        |include: &Reference| blocks.iter().position(|block| block.reference == *include).expect("a block") as u64;
    let includes: Vec<u64> = blocks.iter().flat_map(|block| &block.includes).map(row).collect();
    vec![Slice(block_rows(blocks)), Slice(includes), Number(blocks.len() as u64)]
}

/// Every choice of one number below each of these.
fn products(sizes: &[usize]) -> Vec<Vec<usize>> {
    let longer = |choices: Vec<Vec<usize>>, size: &usize| {
        choices.iter().flat_map(|choice| (0..*size).map(move |last| [&choice[..], &[last]].concat())).collect()
    };
    sizes.iter().fold(vec![vec![]], longer)
}

/// Every list of different ones of these rows, in every order.
fn lists(rows: &[usize]) -> Vec<Vec<usize>> {
    let mut all = vec![vec![]];
    for row in rows {
        let others: Vec<usize> = rows.iter().copied().filter(|other| other != row).collect();
        all.extend(lists(&others).into_iter().map(|list| [&[*row], &list[..]].concat()));
    }
    all
}
