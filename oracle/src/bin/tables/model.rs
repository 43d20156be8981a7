//! W-201 once more, from its text: each refusal a test of its own, tables as maps of words.

use crate::call::{Answer, Call, PAGE_SIZE};
use std::collections::BTreeMap;

const LIMIT: u64 = 0xFFFF_0000;
const V: u8 = 1;
const R: u8 = 2;
const W: u8 = 4;
const X: u8 = 8;
const U: u8 = 16;

/// The refusals that apply, each for itself, in the order in which they count.
pub fn refusals(call: &Call) -> Vec<u32> {
    let tests = [
        (2, !good_map(call)),
        (9, !good_list(call)),
        (10, !good_leaves(call)),
        (11, !good_run(call)),
        (12, u64::from(call.frames) < frames_needed(call)),
    ];
    let failed = tests.into_iter().filter(|(_, failed)| *failed);
    failed.map(|(number, _)| number).collect()
}

pub fn write(call: &mut Call) -> Answer {
    if let Some(&number) = refusals(call).first() {
        return Answer::Refused(number);
    }
    let used = frames_needed(call) as u32;
    let words = words(call);
    for place in (call.first..call.first + used * PAGE_SIZE).step_by(4) {
        let word = words.get(&place).copied().unwrap_or(0);
        let at = (place - call.base) as usize;
        call.memory[at..at + 4].copy_from_slice(&word.to_be_bytes());
    }
    Answer::Written {
        ptbr: call.first,
        used,
    }
}

/// The words that are not 0, by physical address.
fn words(call: &Call) -> BTreeMap<u32, u32> {
    let mut words = BTreeMap::new();
    let mut tables = BTreeMap::new();
    for (i, &vpn) in call.vpns.iter().enumerate() {
        let next = call.first + (tables.len() as u32 + 1) * PAGE_SIZE;
        let table = *tables.entry(vpn >> 10).or_insert(next);
        words.insert(call.first + 4 * (vpn >> 10), table | u32::from(V));
        let leaf = (call.ppns[i] * PAGE_SIZE) | u32::from(call.bits[i] | V);
        words.insert(table + 4 * (vpn & 0x3FF), leaf);
    }
    words
}

fn good_map(call: &Call) -> bool {
    let len = call.memory.len() as u64;
    call.base.is_multiple_of(PAGE_SIZE)
        && len.is_multiple_of(4096)
        && u64::from(call.base) + len <= LIMIT
}

fn good_list(call: &Call) -> bool {
    let n = call.vpns.len();
    let ascending = call.vpns.windows(2).all(|pair| pair[0] < pair[1]);
    n <= 512 && ascending && call.ppns.len() == n && call.bits.len() == n
}

fn good_leaves(call: &Call) -> bool {
    let below = |page: &u32| u64::from(*page) * 4096 < LIMIT;
    let accepted = |bits: &u8| {
        bits & !(R | W | X | U) == 0 && bits & (R | W | X) != 0 && (bits & W == 0 || bits & R != 0)
    };
    call.vpns.iter().all(below) && call.ppns.iter().all(below) && call.bits.iter().all(accepted)
}

fn good_run(call: &Call) -> bool {
    let (base, first) = (u64::from(call.base), u64::from(call.first));
    let inside =
        base <= first && first + u64::from(call.frames) * 4096 <= base + call.memory.len() as u64;
    call.first.is_multiple_of(PAGE_SIZE) && (call.frames == 0 || inside)
}

fn frames_needed(call: &Call) -> u64 {
    let mut directories: Vec<u32> = call.vpns.iter().map(|vpn| vpn >> 10).collect();
    directories.sort_unstable();
    directories.dedup();
    1 + directories.len() as u64
}
