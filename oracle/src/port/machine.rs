//! The port's machine: a script's listing, and one event's step, by value or over a state that is lent.

use crate::event::Event;
use crate::script::Script;
use crate::state;

/// No listing is longer.
pub const LONGEST_LISTING: usize = 131_072;

/// What an event's step leaves, and its line.
#[repr(C)]
pub struct Stepped {
    pub machine: state::Machine,
    pub letter: u8,
    pub digits: u32,
    pub stall: u64,
    pub reads: u32,
}

impl Stepped {
    pub fn line(&self) -> Line {
        Line {
            letter: self.letter,
            digits: self.digits,
            stall: self.stall,
            reads: self.reads,
        }
    }
}

/// An event's line.
#[repr(C)]
pub struct Line {
    pub letter: u8,
    pub digits: u32,
    pub stall: u64,
    pub reads: u32,
}

/// A machine as the port keeps it in place.
pub const STATE_WORDS: usize = 659;

extern "C" {
    /// A lent slice crosses as its pointer and its length.
    fn machine_list(script: *const u8, length: usize, out: *mut u8, room: usize) -> usize;
    fn machine_new(base: u32, len: u32, miss_penalty: u32) -> state::Machine;
    fn machine_step(
        machine: state::Machine,
        mem: *mut u8,
        length: usize,
        base: u32,
        kind: u8,
        size: u8,
        aux: u16,
        a: u32,
        b: u32,
    ) -> Stepped;
    fn machine_start(state: *mut [u32; STATE_WORDS], base: u32, len: u32, miss_penalty: u32);
    fn machine_step_in(
        state: *mut [u32; STATE_WORDS],
        mem: *mut u8,
        length: usize,
        base: u32,
        kind: u8,
        size: u8,
        aux: u16,
        a: u32,
        b: u32,
    ) -> Line;
}

/// The listing of any bytes.
pub fn listing(script: &[u8]) -> Vec<u8> {
    listing_within(script, LONGEST_LISTING)
}

/// The listing in a buffer of so many bytes.
pub fn listing_within(script: &[u8], room: usize) -> Vec<u8> {
    let mut out = vec![0; room];
    // SAFETY: see the head of `port`; the buffer is lent for the call.
    let length =
        unsafe { machine_list(script.as_ptr(), script.len(), out.as_mut_ptr(), out.len()) };
    out.truncate(length);
    out
}

/// The port's machine and the memory that it is lent.
pub struct Machine {
    pub state: state::Machine,
    pub memory: Vec<u8>,
    base: u32,
}

impl Machine {
    pub fn new(script: &Script) -> Self {
        let length = script.image.len() as u32;
        Self {
            // SAFETY: see the head of `port`.
            state: unsafe { machine_new(script.base, length, script.last) },
            memory: script.image.clone(),
            base: script.base,
        }
    }

    /// A machine in any state, over a memory.
    pub fn with_state(state: &state::Machine, base: u32, memory: &[u8]) -> Self {
        Self {
            state: *state,
            memory: memory.to_vec(),
            base,
        }
    }

    /// Steps and says what was left; `state` keeps it too.
    pub fn step(&mut self, event: &Event) -> Stepped {
        let (memory, length) = (self.memory.as_mut_ptr(), self.memory.len());
        let Event {
            kind,
            size,
            aux,
            a,
            b,
        } = *event;
        // SAFETY: see the head of `port`; the memory is lent for the call.
        let stepped =
            unsafe { machine_step(self.state, memory, length, self.base, kind, size, aux, a, b) };
        self.state = stepped.machine;
        stepped
    }
}

/// The port's machine as words that stay here and are lent to each step, and its memory.
pub struct Lent {
    state: Box<[u32; STATE_WORDS]>,
    pub memory: Vec<u8>,
    base: u32,
}

impl Lent {
    pub fn new(script: &Script) -> Self {
        let length = script.image.len() as u32;
        let mut state = Box::new([0; STATE_WORDS]);
        // SAFETY: see the head of `port`; the state is lent for the call.
        unsafe { machine_start(&mut *state, script.base, length, script.last) };
        Self {
            state,
            memory: script.image.clone(),
            base: script.base,
        }
    }

    pub fn step(&mut self, event: &Event) -> Line {
        let (memory, length) = (self.memory.as_mut_ptr(), self.memory.len());
        let Event {
            kind,
            size,
            aux,
            a,
            b,
        } = *event;
        let state = &mut *self.state;
        // SAFETY: see the head of `port`; state and memory are lent for the call.
        unsafe { machine_step_in(state, memory, length, self.base, kind, size, aux, a, b) }
    }
}
