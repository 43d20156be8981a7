//! The L1 tag cache: the published one's answers to events.
//!
//! Kinds: 0 load `a`; 1 store `a`; 2 fetch `a`; 3 external write of `b` bytes at `a`; 4 read
//! register `a`; 5 write `b` to it; 6 read register byte `a`; 7 write `size` to it; 8 reset;
//! 9 new with range `a`, `b`; 10 penalty `a`; others change nothing. It starts as new(0, 0x8000).

use std::cell::RefCell;
use std::rc::Rc;

use crate::bus::{Bus, Device};
use crate::cpu_cache::{connect_cache, L1Cache, CACHE_REG_BASE};
use crate::event::{Event, Replay};
use crate::state::Cache;

pub const KIND_LOAD: u8 = 0;
pub const KIND_STORE: u8 = 1;
pub const KIND_FETCH: u8 = 2;
pub const KIND_EXTERNAL: u8 = 3;
pub const KIND_READ: u8 = 4;
pub const KIND_WRITE: u8 = 5;
pub const KIND_READ_BYTE: u8 = 6;
pub const KIND_WRITE_BYTE: u8 = 7;
pub const KIND_RESET: u8 = 8;
pub const KIND_NEW: u8 = 9;
pub const KIND_PENALTY: u8 = 10;

/// The range at the start.
pub const START: u32 = 0;
pub const SIZE: u32 = 0x8000;

/// Lines of a bank.
const LINES: u32 = 256;
const LINE_BYTES: u32 = 32;

/// How many lines an external write visits where it stops as soon as every index is empty (W-204): the published
/// loop, counted.
pub fn lines_visited(pa: u32, len: u32) -> u32 {
    let end = pa.saturating_add(len);
    let mut line = pa - pa % LINE_BYTES;
    let mut visited = 0;
    while line < end && visited < LINES {
        visited += 1;
        line = line.wrapping_add(LINE_BYTES);
        if line == 0 {
            break;
        }
    }
    visited
}

/// The answer line: the event's value, then the whole state.
pub fn line(value: u32, state: &Cache) -> String {
    let (i, d) = (&state.i, &state.d);
    format!(
        "{value:08X} {:X} {:X} {:08X} {:08X} {:08X} {:08X} {:08X} {:08X} {:08X} {:08X} {:08X}",
        u8::from(i.enabled),
        u8::from(d.enabled),
        i.hits,
        i.misses,
        d.hits,
        d.misses,
        state.miss_penalty,
        state.ram_start,
        state.ram_end,
        i.digest(),
        d.digest()
    )
}

/// The published cache, with its register window on a bus as the published code connects it.
pub struct Published {
    bus: Bus,
    cache: Rc<RefCell<L1Cache>>,
}

impl Default for Published {
    fn default() -> Self {
        let mut bus = Bus::new(START, &[0; SIZE as usize]);
        let cache = connect_cache(&mut bus);
        Self { bus, cache }
    }
}

impl Published {
    pub fn with_state(state: &Cache) -> Self {
        let published = Self::default();
        *published.cache.borrow_mut() = L1Cache::with_state(state);
        published
    }

    pub fn state(&self) -> Cache {
        self.cache.borrow().state()
    }

    fn registers(&mut self) -> &mut dyn Device {
        self.bus
            .device(CACHE_REG_BASE)
            .expect("the published connect_cache adds its register window")
    }

    fn value(&mut self, event: &Event) -> u32 {
        let mut cache = self.cache.borrow_mut();
        match event.kind {
            KIND_LOAD => return cache.load(event.a),
            KIND_STORE => cache.store(event.a),
            KIND_FETCH => return cache.fetch(event.a),
            KIND_EXTERNAL => cache.external_write(event.a, event.b),
            KIND_READ => return cache.read_reg(event.a),
            KIND_WRITE => cache.write_reg(event.a, event.b),
            KIND_RESET => cache.reset(),
            KIND_NEW => *cache = L1Cache::new(event.a, event.b),
            KIND_PENALTY => cache.miss_penalty = event.a,
            _ => {
                drop(cache);
                return self.byte_lane(event);
            }
        }
        0
    }

    fn byte_lane(&mut self, event: &Event) -> u32 {
        match event.kind {
            KIND_READ_BYTE => return u32::from(self.registers().read(event.a)),
            KIND_WRITE_BYTE => self.registers().write(event.a, event.size),
            _ => {}
        }
        0
    }
}

impl Replay for Published {
    fn step(&mut self, event: &Event) -> String {
        let value = self.value(event);
        line(value, &self.state())
    }
}
