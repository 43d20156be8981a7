//! Input of the privilege replay. First what can be listed in full: registers, STATUS, and accesses
//! at the ends of regions, pages and the map. Then user mode is entered and left again and again,
//! regions and tables change under it, and accesses keep to the places where rules change.

use std::collections::BTreeSet;

use crate::cpu_privilege::{
    CPU_RESERVED_BASE, SR_REGION_BASE, SR_STATUS, SR_VCTL, STATUS_PU, STATUS_U,
};
use crate::event::Event;
use crate::generate::run::Run;
use crate::generate::system::{register, size, value};
use crate::generate::tables::Layout;
use crate::privilege::{
    KIND_ALLOWS, KIND_CHECK, KIND_EVERY_REGISTER, KIND_FETCH, KIND_IRET, KIND_LOAD, KIND_PHYSICAL,
    KIND_READ, KIND_REGISTER, KIND_STORE, KIND_TRANSLATE, KIND_TRAP, KIND_WRITE,
};
use crate::random::Random;
use crate::script::{Script, PAGE};

const BASE: u32 = 0;
const PAGES: u32 = 6;

/// A whole input of `count` events: what can be listed in full, and then phases at random.
pub fn script(seed: u64, count: usize) -> Script {
    let mut random = Random::new(seed);
    let layout = Layout::new(BASE, PAGES);
    let image = layout.image(&mut random);
    let mut run = Run::new(random, layout);
    every_register(&mut run);
    every_status(&mut run);
    every_number(&mut run);
    region_ends(&mut run);
    map_ends(&mut run);
    page_ends(&mut run);
    while run.events.len() < count {
        if run.random.chance(10) {
            run.stolen_slot();
        }
        phase(&mut run);
    }
    run.events.truncate(count);
    Script {
        image,
        base: BASE,
        last: 0,
        events: run.events,
    }
}

/// Writes and reads each register number up to the last known one and some behind it.
fn every_register(run: &mut Run) {
    for number in 0..0x48 {
        let value = value(run, number);
        run.write(number, value);
        let event = Event {
            aux: number,
            ..run.noise(KIND_READ)
        };
        run.events.push(event);
    }
}

/// A trap and an IRET from each combination of the five STATUS bits, with R28 to R30 marked.
fn every_status(run: &mut Run) {
    for (status, kind) in (0..32).flat_map(|status| [(status, KIND_TRAP), (status, KIND_IRET)]) {
        run.push(KIND_TRAP);
        if status & STATUS_U != 0 {
            run.write(SR_STATUS, STATUS_PU);
            run.push(KIND_IRET);
        }
        let marked = Event {
            size: 28 + run.random.below(3) as u8,
            ..run.noise(KIND_REGISTER)
        };
        run.events.push(marked);
        run.write(SR_STATUS, status);
        run.push(kind);
    }
}

/// All 65,536 register numbers, as supervisor and as user, with three values each.
fn every_number(run: &mut Run) {
    for value in [0, u32::MAX, run.random.word()] {
        let all = Event {
            a: value,
            ..run.noise(KIND_EVERY_REGISTER)
        };
        run.push(KIND_TRAP);
        run.events.push(all);
        run.enter_user();
        run.events.push(all);
    }
}

/// Region 0 alone, from START up to END.
const REGIONS: [(u32, u32); 4] = [
    (0x1000, 0x2000),
    (0xFFFE_0000, CPU_RESERVED_BASE),
    (0, u32::MAX),
    (0xFFFF_FFFC, u32::MAX),
];

/// Checks of every size and access at both ends of a region, of the reserved part and of the
/// address space.
fn region_ends(run: &mut Run) {
    for (start, end) in REGIONS {
        user_with_region(run, start, end);
        let addresses: BTreeSet<u32> = around(end, 5, 1)
            .chain(around(start, 2, 1))
            .chain(around(CPU_RESERVED_BASE, 4, 1))
            .chain(around(u32::MAX, 3, 0))
            .collect();
        for (addr, size) in each_size(&addresses) {
            for access in 0..3 {
                sized(run, KIND_CHECK, addr, size, access);
            }
        }
    }
}

/// Data of every size and alignment at a page end inside the map, at its start and at its end; at
/// its start, where addresses wrap, as supervisor too.
fn map_ends(run: &mut Run) {
    let (start, end) = (run.layout.base, run.layout.end());
    user_with_region(run, 0, u32::MAX);
    let addresses: BTreeSet<u32> = around(end, 4, 0)
        .chain(around(end - PAGE, 4, 0))
        .chain(around(start, 4, 0))
        .collect();
    data(run, &addresses);
    run.push(KIND_TRAP);
    data(run, &around(start, 4, 0).collect());
}

/// The same through the tables: pages 1 to 4 lead to the map's last frame, to the one before it,
/// to the first one behind the map, and nowhere.
fn page_ends(run: &mut Run) {
    let end = run.layout.end();
    let frames = [end - PAGE, end - 2 * PAGE, end];
    let [last, before, behind] = frames.map(|frame| frame | 0x1F);
    run.user_with_pages(&[last, before, behind, 0]);
    let addresses = [2, 3, 4]
        .into_iter()
        .flat_map(|page| around(page * PAGE, 4, 0))
        .collect();
    data(run, &addresses);
}

/// A store, a load and a fetch of every size at each address.
fn data(run: &mut Run, addresses: &BTreeSet<u32>) {
    for (addr, size) in each_size(addresses) {
        for kind in [KIND_STORE, KIND_LOAD, KIND_FETCH] {
            let value = run.random.word();
            sized(run, kind, addr, size, value);
        }
    }
}

/// From `below` under the place to `above` over it.
fn around(place: u32, below: u32, above: u32) -> impl Iterator<Item = u32> {
    let first = place.wrapping_sub(below);
    (0..=below + above).map(move |step| first.wrapping_add(step))
}

fn each_size(addresses: &BTreeSet<u32>) -> impl Iterator<Item = (u32, u8)> + '_ {
    addresses
        .iter()
        .flat_map(|addr| [1, 2, 4].map(|size| (*addr, size)))
}

fn sized(run: &mut Run, kind: u8, addr: u32, size: u8, b: u32) {
    let event = Event {
        size,
        a: addr,
        b,
        ..run.noise(kind)
    };
    run.events.push(event);
}

/// User mode without translation, in which region 0 grants everything and the others nothing.
fn user_with_region(run: &mut Run, start: u32, end: u32) {
    run.push(KIND_TRAP);
    run.write(SR_VCTL, 0);
    for region in 1..8 {
        run.write(SR_REGION_BASE + 4 * region + 2, 0);
    }
    run.grant_region(start, end);
    run.enter_user();
}

/// Sets up one way of running, and then stays in it for some events.
fn phase(run: &mut Run) {
    let translate = run.set_up();
    for _ in 0..10 + run.random.below(40) {
        let event = event(run, translate);
        run.events.push(event);
    }
}

fn event(run: &mut Run, translate: bool) -> Event {
    let kind = kind(&mut run.random);
    let mut event = run.noise(kind);
    match kind {
        KIND_LOAD | KIND_STORE | KIND_FETCH | KIND_CHECK | KIND_ALLOWS => {
            event.size = size(&mut run.random);
            event.a = run.address(translate);
        }
        KIND_PHYSICAL | KIND_TRANSLATE => event.a = run.address(true),
        KIND_READ | KIND_WRITE => {
            event.aux = register(&mut run.random);
            event.a = value(run, event.aux);
        }
        _ => {}
    }
    event
}

fn kind(random: &mut Random) -> u8 {
    match random.below(100) {
        0..=21 => KIND_LOAD,
        22..=36 => KIND_STORE,
        37..=45 => KIND_FETCH,
        46..=47 => KIND_TRAP,
        48..=52 => KIND_IRET,
        53..=60 => KIND_READ,
        61..=71 => KIND_WRITE,
        72..=78 => KIND_CHECK,
        79..=84 => KIND_ALLOWS,
        85..=88 => KIND_PHYSICAL,
        89..=93 => KIND_TRANSLATE,
        94..=98 => KIND_REGISTER,
        _ => random.pick(&[13, 14, 0x80, 0xFF]),
    }
}
