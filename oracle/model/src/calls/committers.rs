//! Elections, decisions, `try_commit` and the linearizer.

use stream::Header;

use super::{
    committees::committee,
    demand,
    line::{area, Line},
    tables::{stored, Stored},
    Answer, ALREADY_COMMITTED, BAD_ARGUMENT, BAD_OPTIONS, BAD_TABLE, SHORT_AREA, TWO_CERTIFIED,
};
use crate::{
    blocks::{rows, Row},
    commit::Committer,
    committee::Committee,
    decide::{Decider, Placed, Status},
    linear::sub_dag,
    Mistake,
};

/// The options of one base committer.
struct Base {
    wave_length: u64,
    leader_offset: u64,
    round_offset: u64,
    pipelined: bool,
}

impl Base {
    fn read(line: &mut Line) -> Result<Self, u64> {
        let [wave_length, leader_offset, round_offset, pipelined] = [(); 4].map(|_| line.number());
        let shortest = if line.makes(Mistake::WaveThreeAllowed) { 3 } else { 4 };
        let longest = if line.makes(Mistake::WaveSixtyThreeRefused) { 62 } else { 63 };
        let leader = leader_offset < 128 || line.makes(Mistake::LeaderOffsetUntested);
        let round =
            round_offset < wave_length || (round_offset == wave_length && line.makes(Mistake::RoundOffsetUntested));
        demand((shortest..=longest).contains(&wave_length) && leader && round, BAD_OPTIONS)?;
        Ok(Self { wave_length, leader_offset, round_offset, pipelined: pipelined == 1 })
    }

    /// Who leads a round, if it is its wave's leader round.
    fn elect(&self, round: u64, committee: &Committee) -> Option<u64> {
        let leads = round >= self.round_offset && (round - self.round_offset) % self.wave_length == 0;
        let offset = match committee.mistake {
            Mistake::LeaderOffsetIgnored => 0,
            _ => self.leader_offset % committee.size(),
        };
        let number = match committee.mistake {
            Mistake::LeaderByWave => round / self.wave_length,
            _ => round,
        };
        leads.then(|| (number + offset) % committee.size())
    }
}

/// Calls on statuses: authority, round, kind, row.
pub fn leader_status(line: &mut Line) -> Answer {
    let [authority, round, kind, row] = [(); 4].map(|_| line.number());
    match line.name() {
        "leader_status" => {
            let decided = kind == 1 || (kind == 2 && !line.makes(Mistake::SkipIsUndecided));
            Ok(vec![authority, round, decided as u64])
        }
        "leader_status_cmp" => {
            let [other_authority, other_round, other_kind, _] = [(); 4].map(|_| line.number());
            let (by_round, by_authority) = (round.cmp(&other_round), authority.cmp(&other_authority));
            let order = match line.mistake {
                Mistake::StatusByAuthority => by_authority.then(by_round),
                Mistake::StatusByKind => by_round.then(by_authority).then(kind.cmp(&other_kind)),
                _ => by_round.then(by_authority),
            };
            Ok(vec![(order as i8 + 1) as u64])
        }
        _ => {
            let decided = kind == 1 || kind == 2 || line.makes(Mistake::UndecidedHasNoBlock);
            demand(decided, BAD_ARGUMENT)?;
            Ok(if kind == 1 { vec![1, row] } else { vec![0, 0] })
        }
    }
}

/// Wave length, leader offset, round offset and pipelined, where none are given.
pub fn default_options(line: &Line) -> Vec<u64> {
    let wave_length = if line.makes(Mistake::DefaultWaveFour) { 4 } else { 5 };
    vec![wave_length, 0, 0, 1]
}

pub fn elect_leader(line: &mut Line) -> Answer {
    let committee = committee(line)?;
    let base = Base::read(line)?;
    let round = line.number();
    demand(round < 1 << 40, BAD_ARGUMENT)?;
    let elected = base.elect(round, &committee);
    Ok(vec![elected.is_some() as u64, elected.unwrap_or(0)])
}

fn decider<'a>(rows: &'a [Row], committee: &'a Committee, base: &Base) -> Decider<'a> {
    Decider { rows, committee, wave_length: base.wave_length, pipelined: base.pipelined }
}

fn position(line: &Line, base: &Base, committee: &Committee, (leader, round): (u64, u64)) -> Result<(), u64> {
    let elected = round < 1 << 40 && base.elect(round, committee) == Some(leader);
    demand(elected || (line.makes(Mistake::PositionUntested) && round < 1 << 40), BAD_ARGUMENT)
}

fn words((authority, round, status): Placed) -> [u64; 4] {
    match status {
        Status::Commit(row) => [authority, round, 1, row as u64],
        Status::Skip => [authority, round, 2, 0],
        Status::Undecided => [authority, round, 3, 0],
    }
}

pub fn try_direct_decide(line: &mut Line) -> Answer {
    let committee = committee(line)?;
    let base = Base::read(line)?;
    let stored = stored(line, committee.size())?;
    let (leader, round) = (line.number(), line.number());
    position(line, &base, &committee, (leader, round))?;
    let rows = rows(&stored.blocks, line.mistake);
    let status = decider(&rows, &committee, &base).direct(leader, round).map_err(|_| TWO_CERTIFIED)?;
    Ok(words((leader, round, status)).to_vec())
}

pub fn try_indirect_decide(line: &mut Line) -> Answer {
    let committee = committee(line)?;
    let base = Base::read(line)?;
    let stored = stored(line, committee.size())?;
    let (leader, round) = (line.number(), line.number());
    let list = line.slice();
    let statuses = statuses(line, &list, &stored, &committee, true)?;
    position(line, &base, &committee, (leader, round))?;
    demand(line.length() >= stored.blocks.len() || line.makes(Mistake::WorkUntested), SHORT_AREA)?;
    let rows = rows(&stored.blocks, line.mistake);
    let status = decider(&rows, &committee, &base).indirect(leader, round, &statuses);
    Ok(words((leader, round, status.map_err(|_| TWO_CERTIFIED)?)).to_vec())
}

/// The statuses of a list, tested.
fn statuses(
    line: &Line,
    words: &[u64],
    stored: &Stored,
    committee: &Committee,
    undecided: bool,
) -> Result<Vec<Placed>, u64> {
    demand(words.len() % 4 == 0, BAD_TABLE)?;
    let status = |row: &[u64]| {
        let limits = row[0] < committee.size() && row[1] < 1 << 40;
        demand(limits || line.makes(Mistake::StatusLimitsUntested), BAD_TABLE)?;
        let block = stored.blocks.get(row[3] as usize).map(|block| block.reference);
        let there = block.is_some_and(|block| (block.authority, block.round) == (row[0], row[1]));
        let there = there || (block.is_some() && line.makes(Mistake::CommitElsewhere));
        let no_row = row[3] == 0 || line.makes(Mistake::SkipRowUntested);
        match row[2] {
            1 if there => Ok((row[0], row[1], Status::Commit(row[3] as usize))),
            2 if no_row => Ok((row[0], row[1], Status::Skip)),
            3 if no_row && undecided => Ok((row[0], row[1], Status::Undecided)),
            _ => Err(BAD_TABLE),
        }
    };
    words.chunks(4).map(status).collect()
}

/// The options of a universal committer.
fn header(line: &mut Line, committee: &Committee) -> Result<Header, u64> {
    let (wave_length, leaders, pipelined) = (line.number(), line.number(), line.number() == 1);
    let shortest = if line.makes(Mistake::WaveThreeAllowed) { 3 } else { 4 };
    let longest = if line.makes(Mistake::WaveSixtyThreeRefused) { 62 } else { 63 };
    let most = if line.makes(Mistake::LeadersAboveSizeAllowed) { 128 } else { committee.size() };
    let good = (shortest..=longest).contains(&wave_length) && (1..=most).contains(&leaders);
    demand(good, BAD_OPTIONS)?;
    Ok(Header { stakes: committee.stakes.clone(), wave_length, pipelined, leaders })
}

pub fn get_leaders(line: &mut Line) -> Answer {
    let committee = committee(line)?;
    let header = header(line, &committee)?;
    let (round, length) = (line.number(), line.length());
    demand(round < 1 << 40, BAD_ARGUMENT)?;
    let committer = Committer { header, memory: vec![], memory_rows: 0, answer_rows: 0 };
    let mut leaders = committer.leaders(round, &committee);
    if line.makes(Mistake::ShortFilled) {
        leaders.truncate(length);
    }
    demand(leaders.len() <= length, SHORT_AREA)?;
    let mut values = vec![leaders.len() as u64];
    values.extend(area(leaders, length));
    Ok(values)
}

/// The remembered decisions of a request, tested, and the memory's rows.
fn memory(line: &mut Line, stored: &Stored, committee: &Committee) -> Result<(Vec<Placed>, usize), u64> {
    let (words, count) = (line.slice(), line.length());
    demand(words.len() % 4 == 0 && count <= words.len() / 4, BAD_TABLE)?;
    let undecided = line.makes(Mistake::MemoryUndecided);
    let rows = statuses(line, &words[..4 * count], stored, committee, undecided)?;
    let place = |row: &Placed| (row.0, row.1);
    let twice = (1..rows.len()).any(|i| rows[..i].iter().any(|row| place(row) == place(&rows[i])));
    demand(!twice || line.makes(Mistake::MemoryTwice), BAD_TABLE)?;
    let unused_zero = words[4 * count..].iter().all(|word| *word == 0);
    demand(unused_zero || line.makes(Mistake::MemoryUnusedUntested), BAD_TABLE)?;
    Ok((rows, words.len() / 4))
}

pub fn try_commit(line: &mut Line) -> Answer {
    let committee = committee(line)?;
    let header = header(line, &committee)?;
    let stored = stored(line, committee.size())?;
    let (remembered, memory_rows) = memory(line, &stored, &committee)?;
    let (authority, last, threshold) = (line.number(), line.number(), line.number());
    let (answer, work) = (line.length(), line.length());
    demand(answer % 4 == 0 || line.makes(Mistake::AnswerPartRowsAllowed), BAD_TABLE)?;
    let enough_work = work >= stored.blocks.len() || line.makes(Mistake::WorkUntested);
    demand(enough_work || !line.makes(Mistake::ShortBeforeArgument), SHORT_AREA)?;
    let known = (authority < committee.size() && last < 1 << 40) || line.makes(Mistake::LastDecidedUntested);
    let highest = (1 << 40) - u64::from(line.makes(Mistake::ThresholdLimitLow));
    demand(known && threshold <= highest, BAD_ARGUMENT)?;
    demand(enough_work, SHORT_AREA)?;
    let mut committer = Committer { header, memory: remembered, memory_rows, answer_rows: answer / 4 };
    let rows = rows(&stored.blocks, line.mistake);
    let statuses = committer.try_commit(&rows, &committee, (authority, last), threshold)?;
    let mut values = vec![statuses.len() as u64];
    values.extend(area(statuses.into_iter().flat_map(words).collect(), answer));
    values.push(committer.memory.len() as u64);
    values.extend(area(committer.memory.into_iter().flat_map(words).collect(), 4 * memory_rows));
    Ok(values)
}

pub fn handle_commit(line: &mut Line) -> Answer {
    let stored = stored(line, 128)?;
    let count = stored.blocks.len();
    let mut flags = line.slice();
    let length = flags.len() == stored.rows || (flags.len() > stored.rows && line.makes(Mistake::FlagsLengthUntested));
    let values = flags.iter().all(|flag| *flag <= 1) || line.makes(Mistake::FlagValuesUntested);
    let unused = flags.iter().skip(count).all(|flag| *flag == 0) || line.makes(Mistake::FlagsUnusedUntested);
    demand(length && values && unused, BAD_TABLE)?;
    let leaders = line.slice();
    demand(leaders.iter().all(|row| *row < count as u64), BAD_ARGUMENT)?;
    let (order, ends, work) = (line.length(), line.length(), line.length());
    let enough = order >= count && (work >= count || line.makes(Mistake::WorkUntested)) && ends >= leaders.len();
    let late = line.makes(Mistake::CommittedBeforeShort);
    demand(enough || late, SHORT_AREA)?;
    let rows = rows(&stored.blocks, line.mistake);
    let (mut emitted, mut row_ends) = (vec![], vec![]);
    let mut walked: Vec<bool> = flags.iter().take(count).map(|flag| *flag != 0).collect();
    for leader in leaders.iter().map(|row| *row as usize) {
        if line.makes(Mistake::FlagsOfLeaderOnly) {
            walked.fill(false);
        }
        let flagged = walked[leader];
        let empty = flagged && line.makes(Mistake::CommittedLeaderEmpty);
        demand(!flagged || empty || line.makes(Mistake::CommittedLeaderAgain), ALREADY_COMMITTED)?;
        let blocks = if empty { vec![] } else { emitted_by(&rows, leader, &mut walked, line.mistake) };
        let start = emitted.len();
        emitted.extend(blocks.into_iter().map(|row| row as u64));
        let counts = line.makes(Mistake::EndsAreCounts);
        row_ends.push((emitted.len() - if counts { start } else { 0 }) as u64);
    }
    demand(enough, SHORT_AREA)?;
    walked.iter().zip(&mut flags).filter(|(walked, _)| **walked).for_each(|(_, flag)| *flag = 1);
    let mut values = area(emitted, order);
    values.extend(area(row_ends, ends));
    let length = flags.len();
    values.extend(area(flags, length));
    Ok(values)
}

/// A leader's sub-DAG.
fn emitted_by(rows: &[Row], leader: usize, flags: &mut Vec<bool>, mistake: Mistake) -> Vec<usize> {
    if mistake != Mistake::WalkThroughFlagged {
        return sub_dag(rows, leader, flags, mistake);
    }
    let before = flags.clone();
    let mut fresh = vec![false; rows.len()];
    let mut order = sub_dag(rows, leader, &mut fresh, mistake);
    order.retain(|row| !before[*row]);
    order.iter().for_each(|row| flags[*row] = true);
    order
}
