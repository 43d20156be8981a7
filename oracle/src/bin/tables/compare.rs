//! Random lists, good and bad: the port's writer beside the model, and the published walk over what
//! was written.

use crate::call::{Answer, Call, PAGE_SIZE};
use crate::{model, port};
use oracle::bus::Bus;
use oracle::cpu_privilege::{DebugTranslation, SystemState};
use oracle::random::Random;
use std::collections::BTreeMap;

/// How often each refusal, and each pair of refusals that apply together, was met.
#[derive(Default)]
struct Met {
    written: u64,
    longest: u64,
    walks: u64,
    first: BTreeMap<u32, u64>,
    pairs: BTreeMap<(u32, u32), u64>,
}

pub fn run(seed: u64, count: u64) -> Result<String, String> {
    let mut random = Random::new(seed);
    let mut met = Met::default();
    for turn in 0..count {
        let call = any_call(&mut random);
        tally(&mut met, &model::refusals(&call));
        let (mut ours, mut theirs) = (call.clone(), call.clone());
        let answer = port::write(&mut ours);
        if answer != model::write(&mut theirs) || ours != theirs {
            return Err(format!(
                "list {turn} of seed {seed}: {answer:?} for {call:?}"
            ));
        }
        if let Answer::Written { ptbr, .. } = answer {
            met.written += 1;
            met.longest += u64::from(ours.vpns.len() == 512);
            met.walks += walk(&mut random, &ours, ptbr)?;
        }
    }
    Ok(report(count, &met))
}

fn report(count: u64, met: &Met) -> String {
    format!(
        "{count} lists agreed: {} written, {} of them of 512 mappings, and walked at {} addresses; first refusals {:?}; pairs {:?}",
        met.written, met.longest, met.walks, met.first, met.pairs
    )
}

fn tally(met: &mut Met, refusals: &[u32]) {
    for (i, &one) in refusals.iter().enumerate() {
        if i == 0 {
            *met.first.entry(one).or_default() += 1;
        }
        for &two in &refusals[i + 1..] {
            *met.pairs.entry((one, two)).or_default() += 1;
        }
    }
}

/// The published `debug_translate` at each listed page, its neighbours and a thousand others.
fn walk(random: &mut Random, call: &Call, ptbr: u32) -> Result<u64, String> {
    let mut sys = SystemState::default();
    sys.vm.ptbr = ptbr;
    let mut bus = Bus::new(call.base, &call.memory);
    let near = |vpn: &u32| [vpn.wrapping_sub(1) & 0xF_FFFF, *vpn, (vpn + 1) & 0xF_FFFF];
    let mut pages: Vec<u32> = call.vpns.iter().flat_map(near).collect();
    pages.extend((0..1000).map(|_| random.below(0x10_0000)));
    for &page in &pages {
        let va = page * PAGE_SIZE + random.below(PAGE_SIZE);
        let found = sys.debug_translate(va, |pa| Some(bus.read_u32_be(pa)));
        if !right(call, va, &found) {
            return Err(format!("{va:08X} gives {found:?} for {call:?}"));
        }
    }
    Ok(pages.len() as u64)
}

fn right(call: &Call, va: u32, found: &DebugTranslation) -> bool {
    let listed = call.vpns.iter().position(|&vpn| vpn == va / PAGE_SIZE);
    match (listed, found) {
        (None, DebugTranslation::Unmapped) => true,
        (
            Some(i),
            DebugTranslation::Mapped {
                physical, flags, ..
            },
        ) => {
            let bits = [
                (flags.read, 2),
                (flags.write, 4),
                (flags.execute, 8),
                (flags.user, 16),
            ];
            let set: u8 = bits.iter().map(|&(on, bit)| if on { bit } else { 0 }).sum();
            *physical == call.ppns[i] * PAGE_SIZE + va % PAGE_SIZE && set == call.bits[i]
        }
        _ => false,
    }
}

/// How often, in a hundred, a page is repeated or a leaf is bad: in a long list that would be nearly always, so most long lists have none.
const SLIPS: u32 = 1;

/// Mostly good; each thing that can be wrong is so now and then, also several at once.
fn any_call(random: &mut Random) -> Call {
    let pages = random.below(12);
    let base = random.pick(&[0, 0x1000, 0x8000_0000, 0xFFFF_0000 - pages * PAGE_SIZE]);
    let mut memory: Vec<u8> = (0..pages * PAGE_SIZE).map(|_| random.byte()).collect();
    if random.chance(6) {
        memory.push(0);
    }
    let count = any_count(random);
    let slips = if count > 16 && random.chance(80) {
        0
    } else {
        SLIPS
    };
    let vpns = any_pages(random, count, slips);
    let ppns = vpns.iter().map(|_| any_frame(random, slips)).collect();
    let bits = vpns.iter().map(|_| any_bits(random, slips)).collect();
    let mut call = Call {
        base: base + u32::from(random.chance(5)),
        memory,
        vpns,
        ppns,
        bits,
        first: base + random.below(3) * PAGE_SIZE + u32::from(random.chance(8)) * 4,
        frames: random.below(8),
    };
    if random.chance(6) {
        call.bits.pop();
    }
    call
}

/// Mostly short, now and then of any length up to the longest, the longest itself and one more.
fn any_count(random: &mut Random) -> u32 {
    match random.below(100) {
        0..=2 => 513,
        3..=5 => 512,
        6..=8 => random.below(512),
        _ => random.below(16),
    }
}

fn any_pages(random: &mut Random, count: u32, slips: u32) -> Vec<u32> {
    let step = random.pick(&[1, 3, 400, 3000]);
    let mut next = random.below(0x4000);
    let mut pages = Vec::new();
    for _ in 0..count {
        pages.push(next);
        // a step of 0 is a repeat
        next += if random.chance(slips) {
            0
        } else {
            1 + random.below(step)
        };
    }
    if random.chance(4) {
        pages.reverse();
    }
    if random.chance(4) {
        pages.push(0xF_FFF0 + random.below(32));
    }
    pages
}

fn any_frame(random: &mut Random, slips: u32) -> u32 {
    if random.chance(slips) {
        return random.pick(&[0xF_FFF0, 0x10_0000, 0xFFFF_FFFF]);
    }
    random.below(0xF_FFF0)
}

fn any_bits(random: &mut Random, slips: u32) -> u8 {
    if random.chance(slips) {
        return random.pick(&[0, 1, 4, 12, 16, 20, 3, 34]);
    }
    random.pick(&[2, 6, 8, 10, 14, 18, 22, 24, 26, 30])
}
