//! The static library: what `exported` declares, and safe functions over it.

use crate::dag::Tables;

#[repr(C)]
#[derive(Clone, Copy, Debug, PartialEq)]
pub struct Reply {
    pub code: u64,
    pub first: u64,
    pub second: u64,
}

#[repr(C)]
pub struct OfferReply {
    pub reply: Reply,
    pub stored: usize,
    pub pending: usize,
}

/// A lent slice: its pointer and its length.
macro_rules! lent {
    ($slice:expr) => {
        ($slice.as_ptr(), $slice.len())
    };
}

#[rustfmt::skip]
extern "C" {
    fn zhudrabel_committee_is_sound(s: *const u64, sl: usize) -> bool;
    fn zhudrabel_store_is_sound(size: u64, b: *const u64, bl: usize, i: *const u64, il: usize, stored: usize) -> bool;
    fn zhudrabel_tables_are_sound(size: u64, b: *const u64, bl: usize, i: *const u64, il: usize, stored: usize, w: *const u64, wl: usize, n: *const u64, nl: usize, pending: usize) -> bool;
    fn zhudrabel_memory_is_sound(size: u64, b: *const u64, bl: usize, stored: usize, memory: *const u64, ml: usize, decided: usize) -> bool;
    fn zhudrabel_flags_are_sound(b: *const u64, bl: usize, stored: usize, flags: *const u8, fl: usize) -> bool;
    fn zhudrabel_linked(b: *const u64, bl: usize, i: *const u64, il: usize, stored: usize, later: usize, earlier: usize, work: *mut u8, wl: usize) -> Reply;
    fn zhudrabel_get_blocks_by_round(b: *const u64, bl: usize, i: *const u64, il: usize, stored: usize, round: u64, rows: *mut u64, rl: usize) -> Reply;
    fn zhudrabel_add_block(s: *const u64, sl: usize, b: *mut u64, bl: usize, i: *mut u64, il: usize, stored: usize, w: *mut u64, wl: usize, n: *mut u64, nl: usize, pending: usize, block: *const u64, kl: usize, list: *const u64, ll: usize) -> OfferReply;
    fn zhudrabel_try_commit(s: *const u64, sl: usize, wave_length: u64, leaders: u64, pipelined: bool, b: *const u64, bl: usize, i: *const u64, il: usize, stored: usize, memory: *mut u64, ml: usize, decided: usize, last_authority: u64, last_round: u64, threshold: u64, area: *mut u64, al: usize, work: *mut u8, wl: usize) -> Reply;
    fn zhudrabel_handle_commit(b: *const u64, bl: usize, i: *const u64, il: usize, stored: usize, leaders: *const u64, ll: usize, order: *mut u64, ol: usize, ends: *mut u64, el: usize, work: *mut u64, wl: usize, flags: *mut u8, fl: usize) -> Reply;
}

/// The making and the test of a committee, which each call that takes stakes begins with.
pub fn committee_is_sound(stakes: &[u64]) -> bool {
    unsafe { zhudrabel_committee_is_sound(stakes.as_ptr(), stakes.len()) }
}

pub fn store_is_sound(size: u64, t: &Tables) -> bool {
    let ((b, bl), (i, il)) = (lent!(t.blocks), lent!(t.includes));
    unsafe { zhudrabel_store_is_sound(size, b, bl, i, il, t.stored) }
}

pub fn tables_are_sound(size: u64, t: &Tables) -> bool {
    let ((b, bl), (i, il)) = (lent!(t.blocks), lent!(t.includes));
    let ((w, wl), (n, nl)) = (lent!(t.waiting), lent!(t.named));
    unsafe { zhudrabel_tables_are_sound(size, b, bl, i, il, t.stored, w, wl, n, nl, t.pending) }
}

pub fn linked(t: &Tables, later: usize, earlier: usize, work: &mut [u8]) -> Reply {
    let ((b, bl), (i, il)) = (lent!(t.blocks), lent!(t.includes));
    unsafe { zhudrabel_linked(b, bl, i, il, t.stored, later, earlier, work.as_mut_ptr(), work.len()) }
}

pub fn get_blocks_by_round(t: &Tables, round: u64, rows: &mut [u64]) -> Reply {
    let ((b, bl), (i, il)) = (lent!(t.blocks), lent!(t.includes));
    unsafe { zhudrabel_get_blocks_by_round(b, bl, i, il, t.stored, round, rows.as_mut_ptr(), rows.len()) }
}

/// Offers a block; the counts of the tables follow.
pub fn add_block(stakes: &[u64], t: &mut Tables, block: &[u64], list: &[u64]) -> Reply {
    let ((s, sl), (k, kl), (l, ll)) = (lent!(stakes), lent!(block), lent!(list));
    let answer = unsafe {
        zhudrabel_add_block(
            s,
            sl,
            t.blocks.as_mut_ptr(),
            t.blocks.len(),
            t.includes.as_mut_ptr(),
            t.includes.len(),
            t.stored,
            t.waiting.as_mut_ptr(),
            t.waiting.len(),
            t.named.as_mut_ptr(),
            t.named.len(),
            t.pending,
            k,
            kl,
            l,
            ll,
        )
    };
    t.stored = answer.stored;
    t.pending = answer.pending;
    answer.reply
}

/// The committer's state and areas: the decision memory with its count, the answer area, the work bytes.
#[derive(Clone)]
pub struct Committer {
    pub wave_length: u64,
    pub memory: Vec<u64>,
    pub decided: usize,
    pub area: Vec<u64>,
    pub work: Vec<u8>,
}

impl Committer {
    /// The test of all tables that try_commit is lent.
    pub fn tables_are_sound(&self, size: u64, t: &Tables) -> bool {
        let ((b, bl), (m, ml)) = (lent!(t.blocks), lent!(self.memory));
        store_is_sound(size, t) && unsafe { zhudrabel_memory_is_sound(size, b, bl, t.stored, m, ml, self.decided) }
    }

    /// The first rows of the memory, round by round.
    pub fn remembered(&self, rows: usize) -> Vec<u64> {
        let mut rows: Vec<&[u64]> = self.memory.chunks(4).take(rows).collect();
        rows.sort_by_key(|row| row[1]);
        rows.concat()
    }

    /// A pipelined committer of one leader.
    pub fn try_commit(&mut self, stakes: &[u64], t: &Tables, last: (u64, u64), threshold: u64) -> Reply {
        let ((s, sl), (b, bl), (i, il)) = (lent!(stakes), lent!(t.blocks), lent!(t.includes));
        unsafe {
            zhudrabel_try_commit(
                s,
                sl,
                self.wave_length,
                1,
                true,
                b,
                bl,
                i,
                il,
                t.stored,
                self.memory.as_mut_ptr(),
                self.memory.len(),
                self.decided,
                last.0,
                last.1,
                threshold,
                self.area.as_mut_ptr(),
                self.area.len(),
                self.work.as_mut_ptr(),
                self.work.len(),
            )
        }
    }
}

/// The linearizer's flags and areas.
#[derive(Clone)]
pub struct Linearizer {
    pub order: Vec<u64>,
    pub ends: Vec<u64>,
    pub work: Vec<u64>,
    pub flags: Vec<u8>,
}

impl Linearizer {
    /// The test of all tables that handle_commit is lent.
    pub fn tables_are_sound(&self, t: &Tables) -> bool {
        let ((b, bl), (f, fl)) = (lent!(t.blocks), lent!(self.flags));
        store_is_sound(128, t) && unsafe { zhudrabel_flags_are_sound(b, bl, t.stored, f, fl) }
    }

    pub fn handle_commit(&mut self, t: &Tables, leaders: &[u64]) -> Reply {
        let ((b, bl), (i, il), (l, ll)) = (lent!(t.blocks), lent!(t.includes), lent!(leaders));
        unsafe {
            zhudrabel_handle_commit(
                b,
                bl,
                i,
                il,
                t.stored,
                l,
                ll,
                self.order.as_mut_ptr(),
                self.order.len(),
                self.ends.as_mut_ptr(),
                self.ends.len(),
                self.work.as_mut_ptr(),
                self.work.len(),
                self.flags.as_mut_ptr(),
                self.flags.len(),
            )
        }
    }
}
