//! Input of the MMU replay: checks over more pages than the TLB has slots, with pokes into the
//! tables under resident entries and changes of PTBR that flush nothing.

use crate::event::Event;
use crate::generate::tables::{Addresses, Layout};
use crate::mmu::{
    KIND_FETCH, KIND_FLUSH, KIND_INVALIDATE, KIND_POKE, KIND_PTBR, KIND_READ, KIND_TRANSLATE,
    KIND_WRITE,
};
use crate::random::Random;
use crate::script::Script;

const BASE: u32 = 0x0004_0000;
const PAGES: u32 = 8;

/// A whole input of `count` events.
pub fn script(seed: u64, count: usize) -> Script {
    let mut random = Random::new(seed);
    let layout = Layout::new(BASE, PAGES);
    let image = layout.image(&mut random);
    let mut generator = Generator {
        random,
        layout,
        addresses: Addresses::default(),
        lost: false,
    };
    Script {
        image,
        base: BASE,
        last: BASE | 0xABC,
        events: (0..count).map(|_| generator.event()).collect(),
    }
}

struct Generator {
    random: Random,
    layout: Layout,
    addresses: Addresses,
    /// PTBR leads to no root: worth a few checks, no more.
    lost: bool,
}

impl Generator {
    fn event(&mut self) -> Event {
        let random = &mut self.random;
        let mut event = Event {
            kind: if self.lost && random.chance(25) {
                KIND_PTBR
            } else {
                kind(random)
            },
            size: random.pick(&[1, 2, 4, 4, 4]),
            aux: random.half(),
            a: self.addresses.next(random),
            b: random.word(),
        };
        match event.kind {
            KIND_FETCH => event.size = random.pick(&[2, 4, 4]),
            KIND_PTBR => {
                event.a = self.layout.ptbr(random);
                self.lost = !self.layout.is_root(event.a);
            }
            KIND_POKE => (event.a, event.b) = poke(random, &self.layout),
            _ => {}
        }
        event
    }
}

fn kind(random: &mut Random) -> u8 {
    match random.below(100) {
        0..=33 => KIND_READ,
        34..=50 => KIND_WRITE,
        51..=67 => KIND_FETCH,
        68 => KIND_FLUSH,
        69..=74 => KIND_INVALIDATE,
        75..=77 => KIND_PTBR,
        78..=86 => KIND_POKE,
        87..=97 => KIND_TRANSLATE,
        _ => random.pick(&[8, 9, 0x80, 0xFF]),
    }
}

/// A word of a table, mostly; else a word at an end of the map, partly outside.
fn poke(random: &mut Random, layout: &Layout) -> (u32, u32) {
    if random.chance(10) {
        let end = layout.end();
        let places = [layout.base - 4, layout.base - 2, end - 1, end - 4, end];
        return (random.pick(&places), random.word());
    }
    layout.change(random)
}
