//! States that no script makes: every field holds anything that its type holds and the published code
//! can run on. Two valid entries of one page, page numbers of more than 20 bits, counts before 2^32, a
//! disabled bank that is not empty and ranges that are no map are all frequent.

use crate::generate::irqc::mask;
use crate::generate::run::Run;
use crate::generate::system::edge;
use crate::random::Random;
use crate::state::{Bank, Cache, Controller, Machine, Privilege, TlbEntry, Vm, LINES, SLOTS};

/// A machine over the run's tables.
pub fn machine(run: &mut Run) -> Machine {
    Machine {
        sys: privilege(run),
        cache: cache(run),
        irqc: controller(&mut run.random),
    }
}

pub fn controller(random: &mut Random) -> Controller {
    Controller {
        pending: mask(random),
        enable: mask(random),
        source_level: mask(random),
    }
}

/// Also ranges that end before they start.
pub fn cache(run: &mut Run) -> Cache {
    let (start, end) = (run.layout.base, run.layout.end());
    let (first, second) = (
        edge(&mut run.random, &run.layout),
        edge(&mut run.random, &run.layout),
    );
    let range = [
        (start, end),
        (start, end),
        (first, second),
        (0, u32::MAX),
        (u32::MAX, 0),
    ];
    let (ram_start, ram_end) = run.random.pick(&range);
    Cache {
        i: bank(&mut run.random, start),
        d: bank(&mut run.random, start),
        ram_start,
        ram_end,
        miss_penalty: count(&mut run.random),
    }
}

/// Tags of the map's lines, of others, empty ones and ones that no address has.
fn bank(random: &mut Random, base: u32) -> Bank {
    let tag = base >> 13;
    let choices = [
        tag,
        tag,
        tag + 1,
        tag + 2,
        u32::MAX,
        random.word(),
        0x7_FFFF,
        0,
    ];
    let mut tags = [u32::MAX; LINES];
    tags.iter_mut().for_each(|tag| *tag = random.pick(&choices));
    Bank {
        tags,
        enabled: random.chance(70),
        hits: count(random),
        misses: count(random),
    }
}

/// Often about to wrap.
fn count(random: &mut Random) -> u32 {
    let word = random.word();
    random.pick(&[0, 1, 8, u32::MAX, u32::MAX, u32::MAX - 1, word])
}

fn privilege(run: &mut Run) -> Privilege {
    let vm = vm(run);
    let (random, layout) = (&mut run.random, &run.layout);
    let mut bit = || random.chance(50);
    let (ie, pie, pu, short) = (bit(), bit(), bit(), bit());
    Privilege {
        ie,
        pie,
        user: random.chance(75),
        pu,
        short,
        epc: random.word(),
        cause: random.word(),
        other_bank: [0; 3].map(|_| random.word()),
        starts: [0; 8].map(|_| edge(random, layout)),
        ends: [0; 8].map(|_| edge(random, layout)),
        flags: [0; 8].map(|_| random.pick(&[7, 3, 5, 1, 2, 4, 0, 0xFFFF_FFFF])),
        vm,
        reg: [0; 32].map(|_| random.word()),
    }
}

fn vm(run: &mut Run) -> Vm {
    Vm {
        enabled: run.random.chance(75),
        ptbr: run.layout.ptbr(&mut run.random),
        vfault: run.random.word(),
        tlb: [TlbEntry::default(); SLOTS].map(|_| entry(run)),
        next_victim: run.random.below(SLOTS as u32) as usize,
    }
}

/// Pages that accesses reach, so that matches and doubles are frequent. Bits above the twentieth of a
/// page number keep it from matching, and those of a frame are dropped where it becomes an address.
fn entry(run: &mut Run) -> TlbEntry {
    let page = run.addresses.next(&mut run.random) >> 12;
    let (random, layout) = (&mut run.random, &run.layout);
    let frame = layout.leaf(random) >> 12;
    let high = random.pick(&[0, 0, 0, 0, 0x10_0000, 0xFFF0_0000]);
    let flags = random.pick(&[0x1E, 0x1E, 0x12, 0x16, 0x1A, 0x18, 0x0E, 0x14, 0]);
    TlbEntry {
        valid: random.chance(80),
        vpn: page | random.pick(&[0, 0, 0, high]),
        ppn: frame | high,
        flags: flags | random.pick(&[0, 0, 0xFFFF_FFE1]),
    }
}
