//! Input of the cache's replay: addresses keep near the cacheable range and come back to lines
//! used lately, so that hits, misses, conflicts and snoops are all frequent.

use crate::cache::{
    KIND_EXTERNAL, KIND_FETCH, KIND_LOAD, KIND_NEW, KIND_PENALTY, KIND_READ, KIND_READ_BYTE,
    KIND_RESET, KIND_STORE, KIND_WRITE, KIND_WRITE_BYTE, SIZE, START,
};
use crate::event::Event;
use crate::random::Random;

/// Follows the range that the events make cacheable.
pub struct Generator {
    random: Random,
    start: u32,
    end: u32,
    /// Lines used lately, to come back to.
    recent: [u32; 4],
    /// How many sweeps over more than `LONG` bytes may still be made.
    long_sweeps: u32,
}

/// Sweeps over more bytes than this take long, so few are made.
const LONG: u32 = 1 << 24;

impl Generator {
    pub fn new(seed: u64) -> Self {
        Self {
            random: Random::new(seed),
            start: START,
            end: START + SIZE,
            recent: [START; 4],
            long_sweeps: 3,
        }
    }

    pub fn event(&mut self) -> Event {
        let mut event = Event {
            kind: self.kind(),
            size: self.random.byte(),
            aux: self.random.half(),
            a: self.address(),
            b: self.random.word(),
        };
        match event.kind {
            KIND_EXTERNAL => event.b = length(&mut self.random, event.a, &mut self.long_sweeps),
            KIND_READ | KIND_WRITE => {
                event.a = register(&mut self.random);
                event.b = control(&mut self.random);
            }
            KIND_READ_BYTE | KIND_WRITE_BYTE => {
                event.a = self.lane();
                event.size = self.lane_value(event.a);
            }
            KIND_NEW => (event.a, event.b) = self.range(),
            KIND_PENALTY => event.a = self.random.pick(&[0, 8, 8, 8, u32::MAX]),
            _ => {}
        }
        event
    }

    fn kind(&mut self) -> u8 {
        match self.random.below(100) {
            0..=23 => KIND_LOAD,
            24..=37 => KIND_STORE,
            38..=61 => KIND_FETCH,
            62..=68 => KIND_EXTERNAL,
            69..=73 => KIND_READ,
            74..=80 => KIND_WRITE,
            81..=86 => KIND_READ_BYTE,
            87..=93 => KIND_WRITE_BYTE,
            94 => KIND_RESET,
            95..=97 => KIND_NEW,
            98 => KIND_PENALTY,
            _ => self.random.pick(&[11, 12, 0x80, 0xFF]),
        }
    }

    /// Every second address is in a line used lately.
    fn address(&mut self) -> u32 {
        if self.random.chance(50) {
            return self.random.pick(&self.recent) & !31 | self.random.below(32);
        }
        let address = self.fresh_address();
        self.recent[self.random.below(4) as usize] = address;
        address
    }

    /// Three indexes and four tags from the start of the range on, its ends, and a few far ones.
    fn fresh_address(&mut self) -> u32 {
        let (start, end) = (self.start, self.end);
        match self.random.below(16) {
            0 => self.random.pick(&[
                start.wrapping_sub(1),
                start,
                end.wrapping_sub(1),
                end,
                end.wrapping_add(1),
            ]),
            1 => self
                .random
                .pick(&[0, 0x1F, 0x20, 0x1FFF, 0x2000, 0xFFFF_FFE0, u32::MAX]),
            2 => self.random.word(),
            _ => {
                let line = self.random.pick(&[0, 1, 255]) * 32;
                let tag = self.random.below(4) * 0x2000;
                start.wrapping_add(line + tag + self.random.below(32))
            }
        }
    }

    fn lane(&mut self) -> u32 {
        match self.random.below(8) {
            0 => self.random.word(),
            1 => self
                .random
                .pick(&[0x3F, 0x40, 0x44, 0x47, 0x107, 0xFFFF_0307, u32::MAX]),
            2..=4 => self.random.below(0x20),
            _ => 4 + self.random.below(4),
        }
    }

    fn lane_value(&mut self, lane: u32) -> u8 {
        match lane % 4 {
            3 => control(&mut self.random) as u8,
            2 => self.random.byte() & self.random.byte(),
            _ => self.random.byte(),
        }
    }

    /// Two thirds are an ordinary map; the others end at, or pass, the top, or hold nothing.
    fn range(&mut self) -> (u32, u32) {
        let (start, size) = match self.random.below(3) {
            0 => self.random.pick(&[
                (0x1010, 0x2013),
                (0xFFFF_0000, 0x1_0000),
                (0xFFFF_F000, u32::MAX),
                (u32::MAX, 1),
                (0, u32::MAX),
                (0x2000, 0),
            ]),
            _ => self
                .random
                .pick(&[(START, SIZE), (0x1000, 0x4000), (0x7FFF_F000, 0x8000)]),
        };
        self.start = start;
        self.end = start.saturating_add(size);
        self.recent = [start; 4];
        (start, size)
    }
}

/// The length of an external write at `address`: around a line's and a bank's size, and to the
/// top, the long ones as far as `long_sweeps` allows.
pub fn length(random: &mut Random, address: u32, long_sweeps: &mut u32) -> u32 {
    let length = match random.below(8) {
        0 => random.word(),
        1 => random.below(0x4000),
        2 => random.pick(&[8_160, 8_161, 8_191, 8_192, 8_193, u32::MAX]),
        3 => random.below(70),
        _ => random.pick(&[0, 0, 1, 31, 32, 33]),
    };
    if address.saturating_add(length) - (address & !31) <= LONG {
        return length;
    }
    if *long_sweeps == 0 {
        return length % 0x4000;
    }
    *long_sweeps -= 1;
    length
}

/// A register's offset: the known ones, and some that only look like them.
pub fn register(random: &mut Random) -> u32 {
    match random.below(8) {
        0 => random.pick(&[0x01, 0x05, 0x08, 0x0C, 0x20, 0x3C, 0x104, 0xFFFF_0304]),
        1 => random.word(),
        2..=4 => random.pick(&[0x00, 0x10, 0x14, 0x18, 0x1C]),
        _ => 0x04,
    }
}

/// A word for the control register, mostly with both banks on, so that the cache goes on doing
/// something.
pub fn control(random: &mut Random) -> u32 {
    let enable = if random.chance(85) {
        3
    } else {
        random.below(4)
    };
    let strobes = random.below(8) & random.below(8);
    let noise = random.pick(&[0, 0, 0xFFFF_F8FC]);
    enable | strobes << 8 | noise
}
