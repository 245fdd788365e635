//! A seeded DAG, and the tables that hold its first rows.

use std::{fmt, ops::Range};

/// The port's limit of includes.
const MAX_INCLUDES: usize = 1_048_576;

/// How large a DAG is; `full` if each block includes every block of the round below, else each author is there or
/// not, and a block includes a quorum of the round below.
#[derive(Clone, Copy)]
pub struct Shape {
    pub size: usize,
    pub blocks: usize,
    pub full: bool,
}

impl fmt::Display for Shape {
    fn fmt(&self, f: &mut fmt::Formatter<'_>) -> fmt::Result {
        let kind = if self.full { "full" } else { "gappy" };
        write!(f, "{} authorities, {} blocks, {kind}", self.size, self.blocks)
    }
}

pub struct Row {
    pub authority: u64,
    pub round: u64,
    pub digest: [u64; 4],
    pub includes: Vec<usize>,
}

impl Row {
    /// The six words of its reference.
    pub fn reference(&self) -> [u64; 6] {
        let d = self.digest;
        [self.authority, self.round, d[0], d[1], d[2], d[3]]
    }
}

pub struct Dag {
    pub shape: Shape,
    pub rows: Vec<Row>,
    /// Which rows each round has.
    pub rounds: Vec<Range<usize>>,
}

impl Dag {
    /// The same seed gives the same DAG. Fails where the includes are too many for the port's tables.
    pub fn new(shape: Shape, seed: u64) -> Result<Dag, String> {
        let mut draw = Draw(seed);
        let mut dag = Dag { shape, rows: vec![], rounds: vec![] };
        while dag.rows.len() < shape.blocks {
            dag.grow(&mut draw);
        }
        let includes: usize = dag.rows.iter().map(|row| row.includes.len()).sum();
        if MAX_INCLUDES < includes {
            return Err(format!("{includes} includes are more than {MAX_INCLUDES}"));
        }
        Ok(dag)
    }

    /// One round more, its blocks in random order.
    fn grow(&mut self, draw: &mut Draw) {
        let Shape { size, blocks, full } = self.shape;
        let quorum = 2 * size / 3 + 1;
        let below = self.rounds.last().cloned().unwrap_or(0..0);
        let mut authors: Vec<usize> = (0..size).collect();
        draw.shuffle(&mut authors);
        if !full && !below.is_empty() {
            authors.truncate(quorum + draw.below(size - quorum + 1));
        }
        authors.truncate(blocks - self.rows.len());
        let start = self.rows.len();
        for author in authors {
            let mut includes: Vec<usize> = below.clone().collect();
            draw.shuffle(&mut includes);
            if !full {
                includes.truncate(quorum);
            }
            let digest = [draw.next(), draw.next(), draw.next(), draw.next()];
            self.rows.push(Row { authority: author as u64, round: self.rounds.len() as u64, digest, includes });
        }
        self.rounds.push(start..self.rows.len());
    }

    /// The tables of both sides with the first rows stored, and room for all.
    pub fn tables(&self, stored: usize) -> Tables {
        let includes = self.rows.iter().map(|row| row.includes.len()).sum();
        let mut tables = Tables::empty(self.rows.len(), includes);
        let mut first = 0;
        for (i, row) in self.rows[..stored].iter().enumerate() {
            let count = row.includes.len();
            tables.blocks[i * 8..i * 8 + 6].copy_from_slice(&row.reference());
            tables.blocks[i * 8 + 6] = first as u64;
            tables.blocks[i * 8 + 7] = count as u64;
            for (word, include) in tables.includes[first..].iter_mut().zip(&row.includes) {
                *word = *include as u64;
            }
            first += count;
        }
        tables.stored = stored;
        tables
    }

    /// The tables before the first row is offered, and all the others were: the rest of its round is stored, and
    /// everything above waits, in this order or in reverse.
    pub fn tables_without_first(&self, reverse: bool) -> Tables {
        let includes = self.rows.iter().map(|row| row.includes.len()).sum();
        let mut tables = Tables::empty(self.rows.len(), includes);
        let lowest = self.rounds[0].len();
        for (i, row) in self.rows[1..lowest].iter().enumerate() {
            tables.blocks[i * 8..i * 8 + 6].copy_from_slice(&row.reference());
        }
        tables.stored = lowest - 1;
        let mut waiting: Vec<&Row> = self.rows[lowest..].iter().collect();
        if reverse {
            waiting.reverse();
        }
        let mut first = 0;
        for (i, row) in waiting.iter().enumerate() {
            tables.waiting[i * 8..i * 8 + 6].copy_from_slice(&row.reference());
            tables.waiting[i * 8 + 6] = first as u64;
            tables.waiting[i * 8 + 7] = row.includes.len() as u64;
            for include in &row.includes {
                tables.named[first * 6..first * 6 + 6].copy_from_slice(&self.rows[*include].reference());
                first += 1;
            }
        }
        tables.pending = waiting.len();
        tables
    }
}

/// The lent tables of both sides and their counts.
#[derive(Clone, PartialEq)]
pub struct Tables {
    pub blocks: Vec<u64>,
    pub includes: Vec<u64>,
    pub stored: usize,
    pub waiting: Vec<u64>,
    pub named: Vec<u64>,
    pub pending: usize,
}

impl Tables {
    fn empty(rows: usize, includes: usize) -> Tables {
        Tables {
            blocks: vec![0; rows * 8],
            includes: vec![0; includes],
            stored: 0,
            waiting: vec![0; rows * 8],
            named: vec![0; includes * 6],
            pending: 0,
        }
    }
}

/// Random numbers, by the splitmix64 generator.
struct Draw(u64);

impl Draw {
    fn next(&mut self) -> u64 {
        self.0 = self.0.wrapping_add(0x9e37_79b9_7f4a_7c15);
        let mut x = self.0;
        x = (x ^ (x >> 30)).wrapping_mul(0xbf58_476d_1ce4_e5b9);
        x = (x ^ (x >> 27)).wrapping_mul(0x94d0_49bb_1331_11eb);
        x ^ (x >> 31)
    }

    fn below(&mut self, n: usize) -> usize {
        (self.next() % n as u64) as usize
    }

    fn shuffle(&mut self, items: &mut [usize]) {
        for i in (1..items.len()).rev() {
            let j = self.below(i + 1);
            items.swap(i, j);
        }
    }
}
