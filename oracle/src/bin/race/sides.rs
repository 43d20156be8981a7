//! Both sides of the race: each carries the same bytes of events out over its own copy of the memory,
//! and says what came of them and how long it took.

use std::time::{Duration, Instant};

use oracle::event::{Event, LENGTH};
use oracle::machine::{Answer, Machine, Outcome};
use oracle::port::machine as port;
use oracle::script::PAGE;

use crate::work::{Work, FRAMES};

/// How many lines of each letter there were, and what they add up to: the digits modulo 2^32, stalls and
/// walk reads modulo 2^64.
#[repr(C)]
#[derive(Clone, Copy, Debug, Default, PartialEq, Eq)]
pub struct Totals {
    pub values: u64,
    pub exceptions: u64,
    pub bus_errors: u64,
    pub refusals: u64,
    pub digits: u32,
    pub stall: u64,
    pub reads: u64,
}

impl Totals {
    fn add(&mut self, answer: &Answer) {
        let (letters, digits) = match answer.outcome {
            Outcome::Value(value) => (&mut self.values, value),
            Outcome::Exception(cause) => (&mut self.exceptions, cause),
            Outcome::BusError => (&mut self.bus_errors, 0),
            Outcome::Refusal(number) => (&mut self.refusals, number),
        };
        *letters += 1;
        self.digits = self.digits.wrapping_add(digits);
        self.stall = self.stall.wrapping_add(u64::from(answer.stall));
        self.reads = self.reads.wrapping_add(u64::from(answer.reads));
    }

    fn add_line(&mut self, line: &port::Line) {
        let letters = match line.letter {
            b'V' => &mut self.values,
            b'X' => &mut self.exceptions,
            b'B' => &mut self.bus_errors,
            _ => &mut self.refusals,
        };
        *letters += 1;
        self.digits = self.digits.wrapping_add(line.digits);
        self.stall = self.stall.wrapping_add(line.stall);
        self.reads = self.reads.wrapping_add(u64::from(line.reads));
    }
}

extern "C" {
    /// A new machine over the map, and the events in one call. A lent slice crosses as its pointer and
    /// its length.
    fn race_run(
        mem: *mut u8,
        mem_len: usize,
        base: u32,
        penalty: u32,
        events: *const u8,
        events_len: usize,
        count: u32,
    ) -> Totals;
}

/// What a run left, and the time that it took.
pub struct Ran {
    pub totals: Totals,
    pub memory: Vec<u8>,
    pub time: Duration,
}

pub type Side = fn(&Work) -> Ran;

/// The published Rust. Its machine is made before the clock starts.
pub fn published(work: &Work) -> Ran {
    let mut machine = Machine::new(&work.script);
    let mut totals = Totals::default();
    let start = Instant::now();
    let (rows, _) = work.events.as_chunks::<LENGTH>();
    for row in rows {
        totals.add(&machine.step(&Event::decode(row)));
    }
    let time = start.elapsed();
    Ran {
        totals,
        memory: machine.bus.bytes().to_vec(),
        time,
    }
}

/// The port's loop. It makes its machine while the clock runs, and writes no lines, as the Rust does not.
pub fn port(work: &Work) -> Ran {
    timed(work, |memory| {
        // SAFETY: see the head of `oracle::port`; both slices are lent for the call.
        unsafe {
            race_run(
                memory.as_mut_ptr(),
                memory.len(),
                work.script.base,
                work.script.last,
                work.events.as_ptr(),
                work.events.len(),
                work.count(),
            )
        }
    })
}

/// The port, by value: the whole state goes into each step and comes back, over the border to C.
pub fn port_by_value(work: &Work) -> Ran {
    let mut machine = port::Machine::new(&work.script);
    let (totals, time) = called(work, |event| machine.step(event).line());
    Ran {
        totals,
        memory: machine.memory,
        time,
    }
}

/// The port, one call an event over words that stay on this side.
pub fn port_lent(work: &Work) -> Ran {
    let mut machine = port::Lent::new(&work.script);
    let (totals, time) = called(work, |event| machine.step(event));
    Ran {
        totals,
        memory: machine.memory,
        time,
    }
}

/// One call an event. Both machines are made before the clock starts, as the Rust's is.
fn called(work: &Work, mut step: impl FnMut(&Event) -> port::Line) -> (Totals, Duration) {
    let mut totals = Totals::default();
    let start = Instant::now();
    let (rows, _) = work.events.as_chunks::<LENGTH>();
    for row in rows {
        totals.add_line(&step(&Event::decode(row)));
    }
    (totals, start.elapsed())
}

fn timed(work: &Work, run: impl FnOnce(&mut [u8]) -> Totals) -> Ran {
    let mut memory = work.script.image.clone();
    let start = Instant::now();
    let totals = run(&mut memory);
    let time = start.elapsed();
    Ran {
        totals,
        memory,
        time,
    }
}

/// Where the i-th load of a row goes, from the start of its twelve pages: sixteen words of one page, then
/// of the next.
pub fn place(i: u32) -> u32 {
    i / 16 % FRAMES * PAGE + i % (PAGE / 4) * 4
}

/// The lower bound: the address arithmetic and the data load alone, big-endian words added.
pub fn floor(memory: &[u8], count: u32) -> (u32, Duration) {
    let start = Instant::now();
    let sum = (0..count).fold(0u32, |sum, i| {
        let at = place(i) as usize;
        let word = [memory[at], memory[at + 1], memory[at + 2], memory[at + 3]];
        sum.wrapping_add(u32::from_be_bytes(word))
    });
    (sum, start.elapsed())
}
