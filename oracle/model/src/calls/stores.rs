//! Queries of the stored side, offers and the missing list.

use std::collections::BTreeSet;

use stream::{Block, Reference};

use super::{
    committees::committee,
    demand,
    line::{area, reference, reference_words, Line},
    tables::{pending, stored, tables},
    Answer, BAD_ARGUMENT, BAD_TABLE, SHORT_AREA,
};
use crate::{
    blocks::{linked, rows},
    manager::{Manager, Verdict},
    Mistake,
};

fn authority(line: &mut Line) -> Result<u64, u64> {
    let authority = line.number();
    demand(authority < 128, BAD_ARGUMENT)?;
    Ok(authority)
}

fn round(line: &mut Line) -> Result<u64, u64> {
    let round = line.number();
    demand(round < 1 << 40, BAD_ARGUMENT)?;
    Ok(round)
}

fn row(line: &mut Line, blocks: &[Block]) -> Result<usize, u64> {
    let row = line.length();
    demand(row < blocks.len(), BAD_ARGUMENT)?;
    Ok(row)
}

/// The rows whose references are so.
fn chosen(blocks: &[Block], so: impl Fn(&Reference) -> bool) -> Vec<u64> {
    (0..blocks.len()).filter(|row| so(&blocks[*row].reference)).map(|row| row as u64).collect()
}

/// Rows in an area, after their number.
fn listed(line: &mut Line, mut rows: Vec<u64>, stored: usize) -> Answer {
    let length = line.length();
    match line.mistake {
        Mistake::ShortFilled => rows.truncate(length),
        Mistake::RowsDescending => rows.reverse(),
        Mistake::ShortByStored => demand(stored <= length, SHORT_AREA)?,
        _ => {}
    }
    demand(rows.len() <= length, SHORT_AREA)?;
    let mut values = vec![rows.len() as u64];
    values.extend(area(rows, length));
    Ok(values)
}

/// The lowest `limit` of these rounds.
fn lowest(rounds: BTreeSet<u64>, limit: u64) -> BTreeSet<u64> {
    rounds.into_iter().take(limit as usize).collect()
}

/// A query of the stored side.
pub fn query(line: &mut Line) -> Answer {
    let stored = stored(line, 128)?;
    let blocks = &stored.blocks;
    let references = || blocks.iter().map(|block| block.reference);
    match line.name() {
        "get_block" | "block_exists" => {
            let wanted = line.reference();
            demand(wanted.authority < 128 && wanted.round < 1 << 40, BAD_ARGUMENT)?;
            let same = |reference: Reference| crate::blocks::same(&reference, &wanted, line.mistake);
            let row = references().position(same);
            let found = row.is_some() as u64;
            Ok(if line.name() == "get_block" { vec![found, row.unwrap_or(0) as u64] } else { vec![found] })
        }
        "block_exists_at_authority_round" => {
            let (authority, round) = (authority(line)?, round(line)?);
            let by = |r: &Reference| r.authority == authority || line.makes(Mistake::ExistsByAnybody);
            Ok(vec![references().any(|r| r.round == round && by(&r)) as u64])
        }
        "all_blocks_exists_at_authority_round" => {
            let authorities = line.slice();
            demand(authorities.iter().all(|authority| *authority < 128), BAD_ARGUMENT)?;
            let round = round(line)?;
            let has = |a: &u64| references().any(|r| (r.authority, r.round) == (*a, round));
            let some = references().any(|r| r.round == round) || line.makes(Mistake::AllOfEmptyRound);
            Ok(vec![(some && authorities.iter().all(has)) as u64])
        }
        "get_blocks_by_round" => {
            let round = round(line)?;
            listed(line, chosen(blocks, |r| r.round == round), blocks.len())
        }
        "get_blocks_at_authority_round" => {
            let (authority, round) = (authority(line)?, round(line)?);
            let anybody = line.makes(Mistake::BlocksByAnybody);
            listed(line, chosen(blocks, |r| r.round == round && (r.authority == authority || anybody)), blocks.len())
        }
        "get_own_blocks" | "get_others_blocks" => above(line, blocks),
        "last_own_block_ref" => {
            let own = authority(line)?;
            let mine = chosen(blocks, |r| r.authority == own && (r.round > 0 || line.makes(Mistake::LastOwnRoundZero)));
            let round_of = |row: &u64| blocks[*row as usize].reference.round;
            let highest = mine.iter().map(round_of).max();
            let mut last = mine.iter().filter(|row| Some(round_of(row)) == highest);
            let row = if line.makes(Mistake::LastOwnLastRow) { last.next_back() } else { last.next() };
            Ok(vec![row.is_some() as u64, row.copied().unwrap_or(0)])
        }
        "last_seen_by_authority" => {
            let seen = authority(line)?;
            let rounds = references().filter(|r| r.authority == seen).map(|r| r.round);
            let last = if line.makes(Mistake::LastSeenLastRow) { rounds.last() } else { rounds.max() };
            Ok(vec![last.unwrap_or(0)])
        }
        "len_expensive" => Ok(vec![blocks.len() as u64]),
        "highest_round" if line.makes(Mistake::HighestIsLast) => Ok(vec![references().last().map_or(0, |r| r.round)]),
        "highest_round" => Ok(vec![references().map(|r| r.round).max().unwrap_or(0)]),
        "includes" => {
            let row = row(line, blocks)?;
            let named = &rows(blocks, Mistake::Nothing)[row].includes;
            let words: Vec<_> = named.iter().map(|include| *include as u64).collect();
            let length = words.len();
            Ok(area(words, length))
        }
        _ => {
            let (later, earlier) = (row(line, blocks)?, row(line, blocks)?);
            let least = if line.makes(Mistake::WorkByRows) { stored.rows } else { blocks.len() };
            demand(line.length() >= least || line.makes(Mistake::WorkUntested), SHORT_AREA)?;
            let rows = rows(blocks, Mistake::Nothing);
            let yes = match line.mistake {
                Mistake::LinkedSelfNo if later == earlier => false,
                Mistake::LinkedNotAbove if rows[later].round == rows[earlier].round => true,
                mistake => linked(&rows, later, earlier, mistake),
            };
            Ok(vec![yes as u64])
        }
    }
}

/// The blocks of an authority above a round, as far as the limit of rounds goes.
fn above(line: &mut Line, blocks: &[Block]) -> Answer {
    let own = line.name() == "get_own_blocks";
    let (authority, from) = if own {
        (authority(line)?, round(line)?)
    } else {
        let from = round(line)?;
        (authority(line)?, from)
    };
    let limit = line.number();
    let included = line.makes(Mistake::FromIncluded);
    let high_enough = |r: &Reference| r.round > from || (included && r.round == from);
    let own_rounds = own || line.makes(Mistake::OthersLimitOwnRounds);
    let counted = |r: &&Block| high_enough(&r.reference) && (!own_rounds || r.reference.authority == authority);
    let rounds = lowest(blocks.iter().filter(counted).map(|block| block.reference.round).collect(), limit);
    let mut rows = chosen(blocks, |r| r.authority == authority && rounds.contains(&r.round));
    if line.makes(Mistake::OthersLimitBlocks) && !own {
        rows = chosen(blocks, |r| r.authority == authority && high_enough(r));
        rows.truncate(limit as usize);
    }
    listed(line, rows, blocks.len())
}

/// Both sides of a request as a manager.
fn manager(line: &mut Line, size: u64) -> Result<(Manager, usize, usize), u64> {
    let stored = stored(line, size)?;
    let pending = pending(line, &stored, size)?;
    let mut manager = Manager::new(size, stored.rows, stored.includes, line.mistake);
    manager.stored = stored.blocks;
    manager.pending = pending;
    Ok((manager, stored.rows, stored.includes))
}

pub fn add_block(line: &mut Line) -> Answer {
    let committee = committee(line)?;
    let (mut manager, rows, includes) = manager(line, committee.size())?;
    let name = line.reference();
    let mut words = line.slice();
    if line.makes(Mistake::OfferPartRowsAllowed) {
        words.truncate(words.len() / 6 * 6);
    }
    demand(words.len() % 6 == 0, BAD_TABLE)?;
    let block = Block { reference: name, includes: words.chunks(6).map(reference).collect() };
    let mut values = match manager.offer(&block) {
        Verdict::Stored(growth) => vec![1, growth as u64],
        Verdict::Pending => vec![2, 0],
        Verdict::Known => vec![3, 0],
        Verdict::Refused(number) => return Err(number),
    };
    values.extend([manager.stored.len() as u64, manager.pending.len() as u64]);
    values.extend(tables(&manager.stored, &manager.pending, rows, includes));
    Ok(values)
}

pub fn missing_blocks(line: &mut Line) -> Answer {
    let committee = committee(line)?;
    let (manager, ..) = manager(line, committee.size())?;
    let (authority, length) = (line.number(), line.length());
    demand(length % 6 == 0 || line.makes(Mistake::AnswerPartRowsAllowed), BAD_TABLE)?;
    demand(authority < committee.size(), BAD_ARGUMENT)?;
    let mut missing: Vec<Reference> = vec![];
    for include in manager.pending.iter().flat_map(|block| &block.includes) {
        let whose = include.authority == authority || line.makes(Mistake::MissingOfAll);
        let stored = manager.stored.iter().any(|block| block.reference == *include);
        let waiting = manager.pending.iter().any(|block| block.reference == *include);
        let absent = !stored && (!waiting || line.makes(Mistake::MissingWithPending));
        let again = missing.contains(include) && !line.makes(Mistake::MissingRepeated);
        if whose && absent && !again {
            missing.push(*include);
        }
    }
    if line.makes(Mistake::MissingBackwards) {
        missing.reverse();
    }
    demand(missing.len() <= length / 6, SHORT_AREA)?;
    let mut values = vec![missing.len() as u64];
    values.extend(area(missing.iter().flat_map(reference_words).collect(), length));
    Ok(values)
}
