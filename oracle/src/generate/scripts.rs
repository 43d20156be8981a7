//! Whole scripts: runs of all sixteen kinds of events over tables good and damaged.

use crate::event::Event;
use crate::generate::damage::{damaged, rearranged};
use crate::generate::irqc::{mask, source};
use crate::generate::run::Run;
use crate::generate::system::{edge, register, size, value};
use crate::generate::tables::Layout;
use crate::generate::{cache, cases};
use crate::machine::{
    KIND_CACHE_READ, KIND_CACHE_WRITE, KIND_CLEAR, KIND_ENABLE, KIND_EXTERNAL, KIND_FETCH,
    KIND_IRET, KIND_LOAD, KIND_OUTPUT, KIND_READ, KIND_REGISTER, KIND_RESET, KIND_SOURCE,
    KIND_STORE, KIND_TRAP, KIND_WRITE,
};
use crate::random::Random;
use crate::script::{Script, MOST_EVENTS, PAGE, RESERVED};

/// Any script: one with a seed of its own, good, rearranged or damaged.
pub fn any(seed: u64) -> Vec<u8> {
    let mut random = Random::new(seed);
    let pages = random.below(9);
    let count = random.pick(&[0, 1, 20, 100, 400]);
    let script = script(Random::new(random.word64()), pages, count);
    match random.below(10) {
        0 => rearranged(&script, &mut random),
        1 | 2 => damaged(script.write(), &mut random),
        _ => script.write(),
    }
}

/// A long script, good in any case, in which every slot of the TLB is hit, every region is asked and a
/// penalty has any number of digits. Of the system register numbers it asks for a block that its seed
/// chooses: `BLOCKS` seeds in a row ask for all of them.
pub fn long(seed: u64) -> Vec<u8> {
    let mut random = Random::new(seed);
    let pages = random.below(9);
    let count = 1_000 + random.below(750) as usize;
    let mut script = script(Random::new(random.word64()), pages, count);
    if random.chance(50) {
        script.last = random.word() >> random.below(32);
    }
    let tour = tour(
        Random::new(random.word64()),
        Layout::new(script.base, pages),
    );
    let block = register_block((seed % BLOCKS) as u16, &mut random);
    for part in [tour, block] {
        let at = random.below(script.events.len() as u32) as usize;
        script.events.splice(at..at, part);
    }
    script.events.truncate(MOST_EVENTS as usize);
    match random.below(10) {
        0 => rearranged(&script, &mut random),
        _ => script.write(),
    }
}

/// Every slot and every region.
fn tour(random: Random, layout: Layout) -> Vec<Event> {
    let mut run = Run::new(random, layout);
    if run.layout.pages > 0 {
        run.every_slot();
    }
    run.every_region();
    run.events
}

/// Blocks of system register numbers.
pub const BLOCKS: u64 = 65_536 / BLOCK as u64;
const BLOCK: u16 = 32;

/// Each number of a block, written and read.
fn register_block(number: u16, random: &mut Random) -> Vec<Event> {
    let numbers = (0..BLOCK).map(|offset| number * BLOCK + offset);
    let event = |kind, aux, a| Event {
        kind,
        aux,
        a,
        ..Event::default()
    };
    numbers
        .flat_map(|aux| {
            [
                event(KIND_WRITE, aux, random.word()),
                event(KIND_READ, aux, 0),
            ]
        })
        .collect()
}

/// A script with one to three things wrong. Some damage leaves it good.
pub fn broken(seed: u64) -> Vec<u8> {
    let mut random = Random::new(seed);
    let pages = random.below(9);
    let count = random.pick(&[0, 1, 20, 100, 400, 1_900]);
    let script = script(Random::new(random.word64()), pages, count);
    let mut bytes = match random.below(4) {
        0 => rearranged(&script, &mut random),
        _ => script.write(),
    };
    for _ in 0..1 + random.below(3) {
        bytes = damaged(bytes, &mut random);
    }
    bytes
}

/// The scripts of the stored set: the fixed cases, runs over images of few pages, which keep the
/// set small, and some of each kind of damage.
pub fn stored(seed: u64) -> Vec<Vec<u8>> {
    let mut random = Random::new(seed);
    let mut fresh = || Random::new(random.word64());
    let mut scripts = cases::all();
    for pages in [
        1, 1, 1, 2, 1, 1, 3, 1, 1, 2, 1, 0, 1, 1, 4, 1, 1, 2, 1, 1, 3, 1, 2,
    ] {
        scripts.push(script(fresh(), pages, 90).write());
    }
    for round in 0..30 {
        let script = script(fresh(), u32::from(round % 5 == 0), 8);
        scripts.push(match round % 10 {
            0 => rearranged(&script, &mut fresh()),
            _ => damaged(script.write(), &mut fresh()),
        });
    }
    scripts
}

/// A good script with an image of `pages` pages and about `count` events.
pub fn script(random: Random, pages: u32, count: usize) -> Script {
    let mut random = random;
    let base = base(&mut random, pages);
    let last = random.pick(&[0, 1, 8, 8, 8, u32::MAX]);
    let layout = Layout::new(base, pages);
    let image = layout.image(&mut random);
    let mut run = Run::new(random, layout);
    let mut long_sweeps = u32::from(run.random.chance(4));
    while run.events.len() < count {
        if pages > 0 && run.random.chance(15) {
            run.stolen_slot();
        }
        if pages > 0 && run.random.chance(8) {
            run.table_end();
        }
        if run.random.chance(10) {
            source_edges(&mut run);
        }
        phase(&mut run, &mut long_sweeps);
    }
    Script {
        events: run.events,
        image,
        base,
        last,
    }
}

/// A map at the bottom, where 2^32 wraps into it, in the middle, or at its topmost place.
fn base(random: &mut Random, pages: u32) -> u32 {
    random.pick(&[
        0,
        0,
        0,
        PAGE,
        0x0004_0000,
        0x7FFF_F000,
        RESERVED - pages * PAGE,
    ])
}

/// A source rises, is cleared, stays high, falls and rises again; the output is asked between.
fn source_edges(run: &mut Run) {
    let aux = run.random.below(16) as u16;
    let steps = [
        (KIND_ENABLE, 0, u16::MAX),
        (KIND_SOURCE, 1, aux),
        (KIND_OUTPUT, 0, 0),
        (KIND_CLEAR, 0, 1 << aux),
        (KIND_SOURCE, 1, aux),
        (KIND_OUTPUT, 0, 0),
        (KIND_SOURCE, 0, aux),
        (KIND_SOURCE, 1, aux),
        (KIND_OUTPUT, 0, 0),
    ];
    for (kind, size, aux) in steps {
        let event = Event {
            size,
            aux,
            ..run.noise(kind)
        };
        run.events.push(event);
    }
}

/// Sets up one way of running, and then stays in it for some events.
fn phase(run: &mut Run, long_sweeps: &mut u32) {
    let translate = run.layout.pages > 0 && run.set_up();
    for _ in 0..10 + run.random.below(30) {
        let event = event(run, translate, long_sweeps);
        run.events.push(event);
    }
}

/// One event of any kind, with addresses through the tables if `translate`.
pub fn event(run: &mut Run, translate: bool, long_sweeps: &mut u32) -> Event {
    let kind = kind(&mut run.random);
    let mut event = run.noise(kind);
    match kind {
        KIND_LOAD | KIND_STORE | KIND_FETCH => {
            event.size = size(&mut run.random);
            event.a = run.address(translate);
        }
        KIND_READ | KIND_WRITE => {
            event.aux = register(&mut run.random);
            event.a = value(run, event.aux);
        }
        KIND_SOURCE => {
            // Few sources, so that repeated highs and falls are frequent.
            event.aux = match run.random.below(2) {
                0 => run.random.pick(&[0, 3, 5]),
                _ => source(&mut run.random) as u16,
            };
            event.size = run.random.pick(&[0, 1, 1, 1, 2, 0x80]);
        }
        KIND_CLEAR | KIND_ENABLE => event.aux = mask(&mut run.random),
        KIND_EXTERNAL => {
            event.a = edge(&mut run.random, &run.layout);
            event.b = cache::length(&mut run.random, event.a, long_sweeps);
        }
        KIND_CACHE_READ | KIND_CACHE_WRITE => {
            event.a = cache::register(&mut run.random);
            event.b = cache::control(&mut run.random);
        }
        KIND_REGISTER => event.size = run.random.pick(&[0, 1, 28, 28, 29, 30, 31, 32, 33, 0xFF]),
        _ => {}
    }
    event
}

fn kind(random: &mut Random) -> u8 {
    match random.below(100) {
        0..=19 => KIND_LOAD,
        20..=31 => KIND_STORE,
        32..=43 => KIND_FETCH,
        44..=45 => KIND_TRAP,
        46..=49 => KIND_IRET,
        50..=55 => KIND_READ,
        56..=62 => KIND_WRITE,
        63..=68 => KIND_SOURCE,
        69..=72 => KIND_CLEAR,
        73..=75 => KIND_ENABLE,
        76..=80 => KIND_EXTERNAL,
        81..=85 => KIND_CACHE_READ,
        86..=88 => KIND_CACHE_WRITE,
        89 => KIND_RESET,
        90..=93 => KIND_OUTPUT,
        94..=97 => KIND_REGISTER,
        _ => random.pick(&[16, 17, 0x80, 0xFF]),
    }
}

#[cfg(test)]
mod tests {
    use super::{broken, long};
    use crate::script::Script;

    #[test]
    fn long_scripts_are_good_and_long() {
        for seed in 0..40 {
            let script = Script::read(&long(seed)).expect("a good script");
            assert!(script.events.len() >= 1_000, "seed {seed}");
        }
    }

    /// Most of what is broken is refused, and for each of the three reasons.
    #[test]
    fn broken_scripts_are_refused() {
        let refusals: Vec<u32> = (0..400)
            .filter_map(|seed| Script::read(&broken(seed)).err())
            .collect();
        assert!(refusals.len() > 200);
        for number in [2, 4, 5] {
            assert!(refusals.contains(&number), "refusal {number}");
        }
    }
}
