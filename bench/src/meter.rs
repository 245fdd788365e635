//! What a piece of work costs: processor time, and instructions of this program where something counts them.

use std::{fs, hint::black_box, path::PathBuf};

#[derive(Clone, Copy, PartialEq)]
pub enum Unit {
    Nanoseconds,
    Instructions,
}

#[derive(Clone, Copy)]
pub struct Cost {
    pub nanoseconds: f64,
    pub instructions: f64,
}

impl Cost {
    pub const MOST: Cost = Cost { nanoseconds: f64::MAX, instructions: f64::MAX };

    pub fn of(self, unit: Unit) -> f64 {
        match unit {
            Unit::Nanoseconds => self.nanoseconds,
            Unit::Instructions => self.instructions,
        }
    }

    /// What is left of a cost without another.
    fn without(self, other: Cost) -> Cost {
        Cost {
            nanoseconds: (self.nanoseconds - other.nanoseconds).max(1.0),
            instructions: (self.instructions - other.instructions).max(1.0),
        }
    }

    pub fn least(self, other: Cost) -> Cost {
        Cost {
            nanoseconds: self.nanoseconds.min(other.nanoseconds),
            instructions: self.instructions.min(other.instructions),
        }
    }

    /// The mean of some costs.
    pub fn mean(costs: &[Cost]) -> Cost {
        let share = 1.0 / costs.len() as f64;
        Cost {
            nanoseconds: costs.iter().map(|c| c.nanoseconds).sum::<f64>() * share,
            instructions: costs.iter().map(|c| c.instructions).sum::<f64>() * share,
        }
    }
}

enum Counter {
    /// The machine's own counter, through this descriptor.
    Perf(i32),
    /// Callgrind, which writes its sums to files whose names begin so.
    Callgrind(PathBuf),
    Nothing,
}

pub struct Meter {
    counter: Counter,
    /// What measuring itself costs.
    own: Cost,
}

extern "C" {
    fn syscall(number: i64, ...) -> i64;
    fn read(descriptor: i32, into: *mut u64, bytes: usize) -> isize;
    fn clock_gettime(clock: i32, into: *mut [i64; 2]) -> i32;
}

impl Meter {
    /// Times, and the machine's instruction counter where this process may read it.
    pub fn of_the_machine() -> Meter {
        const PERF_EVENT_OPEN: i64 = 298;
        let mut event = [0u64; 16];
        event[0] = 128 << 32; // a hardware event, and the bytes of this description
        event[1] = 1; // instructions
        event[5] = 1 << 5 | 1 << 6; // neither the kernel's nor the hypervisor's
        let descriptor = unsafe { syscall(PERF_EVENT_OPEN, event.as_ptr(), 0i32, -1i32, -1i32, 0u64) };
        let counter = if descriptor < 0 { Counter::Nothing } else { Counter::Perf(descriptor as i32) };
        Meter::new(counter)
    }

    /// Callgrind's counts; CALLGRIND_OUT names the file it was told to write.
    pub fn of_callgrind() -> Meter {
        let file = std::env::var("CALLGRIND_OUT").expect("CALLGRIND_OUT names callgrind's file");
        Meter::new(Counter::Callgrind(PathBuf::from(file)))
    }

    fn new(counter: Counter) -> Meter {
        let meter = Meter { counter, own: Cost { nanoseconds: 0.0, instructions: 0.0 } };
        let own = (0..20).map(|_| meter.measure(|| ()).1).fold(Cost::MOST, Cost::least);
        Meter { own, ..meter }
    }

    pub fn name(&self) -> &'static str {
        match self.counter {
            Counter::Perf(_) => "Processor times, and instructions by perf_event",
            Counter::Callgrind(_) => "Instructions by callgrind",
            Counter::Nothing => "Processor times; this machine has no instruction counter",
        }
    }

    pub fn units(&self) -> &'static [Unit] {
        match self.counter {
            Counter::Perf(_) => &[Unit::Nanoseconds, Unit::Instructions],
            Counter::Callgrind(_) => &[Unit::Instructions],
            Counter::Nothing => &[Unit::Nanoseconds],
        }
    }

    /// How often a piece of work is worth doing: counts repeat, times don't.
    pub fn turns(&self) -> usize {
        match self.counter {
            Counter::Callgrind(_) => 1,
            _ => 3,
        }
    }

    /// The longest table test, in nanoseconds and not counted, that is worth measuring: counting makes it some ten times as long.
    pub fn longest_test(&self) -> f64 {
        match self.counter {
            Counter::Callgrind(_) => 1e8,
            _ => 1e9,
        }
    }

    /// What the work gives, and what it cost.
    pub fn measure<T>(&self, work: impl FnOnce() -> T) -> (T, Cost) {
        let (given, cost) = self.measured(work);
        (given, cost.without(self.own))
    }

    fn measured<T>(&self, work: impl FnOnce() -> T) -> (T, Cost) {
        match &self.counter {
            Counter::Perf(descriptor) => {
                let before = perf_count(*descriptor);
                let (given, cost) = timed(work);
                (given, Cost { instructions: (perf_count(*descriptor) - before) as f64, ..cost })
            }
            Counter::Callgrind(file) => {
                callgrind(START);
                callgrind(ZERO);
                let (given, cost) = timed(work);
                callgrind(DUMP);
                callgrind(STOP);
                (given, Cost { instructions: newest_total(file), ..cost })
            }
            Counter::Nothing => timed(work),
        }
    }
}

/// What the work gives, and the time that it took.
pub fn timed<T>(work: impl FnOnce() -> T) -> (T, Cost) {
    let start = processor_time();
    let given = black_box(work());
    (given, Cost { nanoseconds: processor_time() - start, instructions: 0.0 })
}

/// The time that this thread has run, in nanoseconds: other programs' turns are not counted.
fn processor_time() -> f64 {
    const THREAD_CPUTIME: i32 = 3;
    let mut time = [0; 2];
    unsafe { clock_gettime(THREAD_CPUTIME, &mut time) };
    time[0] as f64 * 1e9 + time[1] as f64
}

fn perf_count(descriptor: i32) -> u64 {
    let mut count = 0;
    unsafe { read(descriptor, &mut count, 8) };
    count
}

/// Requests that callgrind.h numbers.
const DUMP: u64 = 0x4354_0000;
const ZERO: u64 = 0x4354_0001;
const START: u64 = 0x4354_0004;
const STOP: u64 = 0x4354_0005;

/// Asks callgrind, by the instructions that valgrind.h names; outside of valgrind they do nothing.
fn callgrind(request: u64) {
    let arguments = [request, 0, 0, 0, 0, 0];
    unsafe {
        std::arch::asm!(
            "rol rdi, 3",
            "rol rdi, 13",
            "rol rdi, 61",
            "rol rdi, 51",
            "xchg rbx, rbx",
            in("rax") arguments.as_ptr(),
            inout("rdx") 0u64 => _,
            inout("rdi") 0u64 => _,
        );
    }
}

/// The sum in the file that callgrind wrote last, which is removed.
fn newest_total(file: &PathBuf) -> f64 {
    let folder = file.parent().expect("a folder");
    let name = file.file_name().expect("a name").to_string_lossy().into_owned() + ".";
    let mut written: Vec<PathBuf> = fs::read_dir(folder)
        .expect("callgrind's folder")
        .map(|entry| entry.expect("an entry").path())
        .filter(|path| path.file_name().is_some_and(|n| n.to_string_lossy().starts_with(&name)))
        .collect();
    written.sort();
    let path = written.pop().expect("callgrind has written a file");
    let text = fs::read_to_string(&path).expect("callgrind's file");
    fs::remove_file(&path).expect("callgrind's file can be removed");
    let total = text.lines().find_map(|line| line.strip_prefix("totals: ")).expect("a total");
    total.trim().parse().expect("a number")
}
