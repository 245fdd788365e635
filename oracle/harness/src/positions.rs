//! Which positions a committer examines (document 01, "Leaders").

/// The options of a universal committer.
#[derive(Clone, Copy, Debug, PartialEq, Eq)]
pub struct Options {
    pub wave_length: u64,
    pub leaders: u64,
    pub pipelined: bool,
}

/// What decides which rounds `try_commit` goes through.
#[derive(Clone, Copy, Debug)]
pub struct Extent {
    pub last_decided: u64,
    pub highest: u64,
    pub threshold: u64,
}

/// The highest round examined, if any is.
fn top(options: Options, extent: Extent) -> Option<u64> {
    let length = options.wave_length;
    if extent.highest < length || extent.threshold < length {
        return None;
    }
    let top = extent.highest.min(extent.threshold - length);
    (extent.last_decided <= top).then_some(top)
}

/// How many positions `try_commit` examines, by arithmetic.
pub fn count(options: Options, extent: Extent) -> u128 {
    let Some(top) = top(options, extent) else {
        return 0;
    };
    let rounds = if options.pipelined {
        top - extent.last_decided + 1
    } else {
        let length = options.wave_length;
        (top / length + 1).saturating_sub(extent.last_decided.div_ceil(length))
    };
    u128::from(rounds) * u128::from(options.leaders)
}

/// The positions that `try_commit` examines, authority and round, in the order in which it reaches them.
pub fn examined(options: Options, extent: Extent, size: u64) -> Vec<(u64, u64)> {
    let Some(top) = top(options, extent) else {
        return vec![];
    };
    let rounds = (extent.last_decided..=top).rev();
    rounds
        .filter(|round| options.pipelined || round % options.wave_length == 0)
        .flat_map(|round| (0..options.leaders).rev().map(move |offset| ((round + offset) % size, round)))
        .collect()
}
