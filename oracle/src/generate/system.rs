//! Numbers for system registers, traps and regions, shared by the privilege replay and whole
//! scripts.

use crate::cpu_privilege::{
    CPU_RESERVED_BASE, SR_PTBR, SR_REGION_BASE, SR_STATUS, SR_TLBINV, SR_USP, SR_VCTL,
};
use crate::generate::run::Run;
use crate::generate::tables::Layout;
use crate::random::Random;
use crate::script::PAGE;

/// A register number: the known ones and their neighbours, now and then any of 16 bits.
pub fn register(random: &mut Random) -> u16 {
    match random.below(16) {
        0 => random.half(),
        1 => random.pick(&[0x0100, 0x0141, 0x0143, 0x8010, 0xFF00, 0xFFFF]),
        2 => random.below(0x50) as u16,
        3 => SR_USP + random.below(3) as u16,
        4 | 5 => random.below(3) as u16,
        6..=11 => SR_REGION_BASE + random.below(33) as u16,
        _ => SR_VCTL + random.below(6) as u16,
    }
}

/// A value that suits the register, mostly.
pub fn value(run: &mut Run, number: u16) -> u32 {
    let random = &mut run.random;
    if random.chance(5) {
        return random.word();
    }
    match number {
        SR_STATUS => random.below(32) | random.pick(&[0, 8, 8, 0xFFFF_FFE0]),
        SR_VCTL => random.pick(&[0, 1, 1, 3, 0xFFFF_FFFE, 0xFFFF_FFFF]),
        SR_PTBR => run.layout.ptbr(random),
        SR_TLBINV => run.addresses.next(random),
        0x10..=0x2F => region_value(random, number, &run.layout),
        _ => random.word(),
    }
}

/// Ends of regions at places that accesses reach, with flags that grant something.
fn region_value(random: &mut Random, number: u16, layout: &Layout) -> u32 {
    let edge = edge(random, layout);
    match number % 4 {
        0 => random.pick(&[0, 0, layout.base, layout.base + 2, edge]),
        1 => random.pick(&[layout.end(), u32::MAX, edge, edge]),
        _ => random.pick(&[7, 7, 7, 3, 5, 1, 2, 4, 0, 0xFF, 0xFFFF_FFF8]),
    }
}

/// A physical address at which an access may go from good to bad: ends of the map and of its
/// pages, the reserved part, and the top.
pub fn edge(random: &mut Random, layout: &Layout) -> u32 {
    let place = match random.below(8) {
        0 => CPU_RESERVED_BASE,
        1 => 0,
        2 => layout.end(),
        3 => layout.base,
        _ => layout
            .base
            .wrapping_add(random.below(layout.pages + 1) * PAGE),
    };
    place.wrapping_add(random.below(9)).wrapping_sub(4)
}

/// A size: legal, mostly.
pub fn size(random: &mut Random) -> u8 {
    if random.chance(4) {
        return random.byte();
    }
    random.pick(&[1, 2, 4, 4, 4, 2])
}
