//! The limits of document 01, and the numbers of its refusals.

pub const MAX_AUTHORITIES: u64 = 128;
pub const MAX_TOTAL: u64 = (1 << 63) - 1;
pub const MAX_ROUND: u64 = (1 << 40) - 1;
pub const MAX_CLOCK_ROUND: u64 = 1 << 40;
pub const MIN_WAVE_LENGTH: u64 = 4;
pub const MAX_WAVE_LENGTH: u64 = 63;
pub const MAX_LEADER_OFFSET: u64 = 127;
pub const MAX_INCLUDES: usize = 511;
pub const MAX_BLOCK_ROWS: usize = 65_536;
pub const MAX_INCLUDE_ROWS: usize = 1_048_576;

/// Why a call is refused; the discriminant is document 01's number.
#[derive(Clone, Copy, Debug, PartialEq, Eq)]
pub enum Refusal {
    BadCommittee = 1,
    BadOptions = 2,
    BadTable = 3,
    BadArgument = 4,
    Full = 5,
    AlreadyCommitted = 6,
    TwoCertified = 7,
    ShortArea = 8,
}

impl Refusal {
    /// Document 01's number.
    pub fn number(self) -> u64 {
        self as u64
    }
}

/// Refuses with 1 unless the stakes make a committee.
pub fn check_stakes(stakes: &[u64]) -> Result<(), Refusal> {
    let size = stakes.len() as u64;
    let total = stakes.iter().map(|stake| u128::from(*stake)).sum::<u128>();
    let good = (1..=MAX_AUTHORITIES).contains(&size)
        && stakes.iter().all(|stake| *stake > 0)
        && total <= u128::from(MAX_TOTAL);
    good.then_some(()).ok_or(Refusal::BadCommittee)
}

/// Refuses with 2 unless the options suit a committee of this size.
pub fn check_options(wave_length: u64, leaders: u64, size: u64) -> Result<(), Refusal> {
    let good = (MIN_WAVE_LENGTH..=MAX_WAVE_LENGTH).contains(&wave_length) && (1..=size).contains(&leaders);
    good.then_some(()).ok_or(Refusal::BadOptions)
}
