//! Input of the interrupt controller's replay: rises, repeated highs and falls of few sources,
//! masks of all sorts, and the numbers and addresses at which a rule changes.

use crate::event::Event;
use crate::irqc::{KIND_CLEAR, KIND_ENABLE, KIND_LEVELS, KIND_RESET, KIND_SOURCE, KIND_WRITE};
use crate::random::Random;

/// One event; a row of them is an input.
pub fn event(random: &mut Random) -> Event {
    let mut event = Event {
        a: address(random),
        aux: mask(random),
        b: random.word(),
        ..Event::default()
    };
    match random.below(100) {
        0..=44 => {
            event.kind = KIND_SOURCE;
            event.a = source(random);
            event.size = random.pick(&[0, 0, 1, 1, 1, 2, 0x80, 0xFF]);
        }
        45..=59 => {
            event.kind = KIND_LEVELS;
            event.a = random.word() & random.pick(&[0xFFFF, 0xFFFF_FFFF, 0x1248]);
        }
        60..=69 => event.kind = KIND_CLEAR,
        70..=79 => event.kind = KIND_ENABLE,
        80..=94 => {
            event.kind = KIND_WRITE;
            event.size = random.byte() & random.byte();
        }
        95..=96 => event.kind = KIND_RESET,
        _ => event.kind = random.pick(&[6, 7, 16, 0x80, 0xFF]),
    }
    event
}

/// A source's number: one of the sixteen, mostly.
pub fn source(random: &mut Random) -> u32 {
    match random.below(20) {
        0 => random.pick(&[255, 256, 259, 0x1_0003, 0x8000_0000, u32::MAX]),
        1 => 16 + random.below(5),
        _ => random.below(16),
    }
}

/// Dense, sparse, single and extreme masks.
pub fn mask(random: &mut Random) -> u16 {
    match random.below(6) {
        0 => random.half(),
        1 => random.half() & random.half() & random.half(),
        2 => random.half() | random.half() | random.half(),
        3 => 1 << random.below(16),
        4 => !(1 << random.below(16)),
        _ => random.pick(&[0, 0xFFFF, 0x00FF, 0xFF00, 0x8001]),
    }
}

fn address(random: &mut Random) -> u32 {
    match random.below(8) {
        0 => random.word(),
        1 => random.pick(&[0x100, 0x104, 0x1_0000, 0x8000_0005, 0xFFFF_0040, u32::MAX]),
        2 => random.below(16),
        _ => random.pick(&[0, 1, 4, 5]),
    }
}
