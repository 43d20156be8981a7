//! Scripts that are no chance: document 01's whole case, its run-only corner at a size that fits
//! into a script, external writes around a bank's size and of nearly 4 GiB, numbers that are none, and a
//! header on each side of every rule.

use crate::event::Event;
use crate::machine::{
    KIND_ENABLE, KIND_EXTERNAL, KIND_FETCH, KIND_IRET, KIND_LOAD, KIND_OUTPUT, KIND_SOURCE,
    KIND_STORE, KIND_WRITE,
};
use crate::script::{Script, HEADER, LONGEST, PAGE};

/// All of them, as bytes.
pub fn all() -> Vec<Vec<u8>> {
    let mut scripts = vec![
        whole_case().write(),
        stolen_slot().write(),
        sweeps().write(),
        odd_numbers().write(),
    ];
    scripts.extend(HEADERS.iter().map(|(words, length)| bare(*words, *length)));
    scripts
}

/// The whole case of document 01.
pub fn whole_case() -> Script {
    let mut image = vec![0; PAGE as usize];
    image[..4].copy_from_slice(&[1, 2, 3, 4]);
    Script {
        events: vec![load(0), load(0x1C), write(0x13, 0), load(0x1000)],
        image,
        base: 0,
        last: 8,
    }
}

fn load(a: u32) -> Event {
    Event {
        kind: KIND_LOAD,
        size: 4,
        a,
        ..Event::default()
    }
}

fn write(aux: u16, a: u32) -> Event {
    Event {
        kind: KIND_WRITE,
        aux,
        a,
        ..Event::default()
    }
}

/// The run-only corner with physical page 7 in place of 0x21: page 5 alone in slot 0, the TLB
/// full, page 6 missing. The tables are in pages 1 and 2.
fn stolen_slot() -> Script {
    let mut image: Vec<u8> = (0..8 * PAGE).map(|at| (at / 3 + at / PAGE) as u8).collect();
    put_word(&mut image, PAGE, 2 * PAGE + 1);
    for page in 5..32 {
        let frame = if page == 6 { 7 } else { 3 };
        put_word(&mut image, 2 * PAGE + 4 * page, frame * PAGE + 0x13);
    }
    let iret = Event {
        kind: KIND_IRET,
        ..Event::default()
    };
    let mut events = vec![write(0x41, PAGE), write(0x40, 1), write(0, 8), iret];
    events.push(load(5 * PAGE));
    events.extend((7..22).map(|page| load(page * PAGE)));
    events.push(load(5 * PAGE + 0xFFE));
    Script {
        events,
        image,
        base: 0,
        last: 8,
    }
}

/// External writes, each over lines that both banks hold: at the first two indexes, at the last two, and at two in
/// the middle. A write that starts at index 1 comes last to index 0, and the topmost line has the last index.
fn sweeps() -> Script {
    let held = [0, 1, 0x7F, 0x80, 0xFE, 0xFF].map(|index| index * LINE);
    let mut events = Vec::new();
    for (a, b) in SWEEPS {
        events.extend(held.map(load));
        events.extend(held.map(|a| Event {
            kind: KIND_FETCH,
            ..load(a)
        }));
        events.push(Event {
            kind: KIND_EXTERNAL,
            a,
            b,
            ..Event::default()
        });
    }
    Script {
        events,
        image: vec![0; 2 * PAGE as usize],
        base: 0,
        last: 8,
    }
}

const LINE: u32 = 32;

/// Addresses and lengths: of nothing; 255, 256 and 257 lines; to the top and over it; nearly 4 GiB.
const SWEEPS: [(u32, u32); 11] = [
    (0x20, 0),
    (0x25, 0),
    (0x20, 255 * LINE),
    (0x25, 255 * LINE - 5),
    (0x25, 255 * LINE - 4),
    (0x20, 256 * LINE),
    (0x20, 256 * LINE + 1),
    (0xFFFF_E025, 0x1FDA),
    (0xFFFF_E025, u32::MAX),
    (0x25, 0xFFFF_FFA0),
    (0x25, u32::MAX),
];

/// Sizes that are no sizes; sources that a byte would take for source 3, and a level in a high bit.
fn odd_numbers() -> Script {
    let event = |kind, size, aux| Event {
        kind,
        size,
        aux,
        ..Event::default()
    };
    let accesses = [KIND_LOAD, KIND_STORE, KIND_FETCH];
    let sizes = [0, 1, 3, 5, 8, 0xFF];
    let mut events: Vec<Event> = accesses
        .iter()
        .flat_map(|kind| sizes.map(|size| event(*kind, size, 0)))
        .collect();
    events.push(event(KIND_ENABLE, 0, u16::MAX));
    for (level, source) in [(1, 0x0103), (1, 0x0013), (1, 0x8003), (0x80, 3)] {
        events.extend([event(KIND_SOURCE, level, source), event(KIND_OUTPUT, 0, 0)]);
    }
    Script {
        events,
        image: vec![0; PAGE as usize],
        ..Script::default()
    }
}

fn put_word(image: &mut [u8], at: u32, word: u32) {
    image[at as usize..at as usize + 4].copy_from_slice(&word.to_be_bytes());
}

/// A header and zeros up to a length.
fn bare(words: [u32; 6], length: usize) -> Vec<u8> {
    let mut bytes: Vec<u8> = words.iter().flat_map(|word| word.to_be_bytes()).collect();
    bytes.resize(length, 0);
    bytes
}

/// Header words and script lengths around each rule, alone and with a later rule broken too.
const HEADERS: [([u32; 6], usize); 40] = [
    // Lengths of the script.
    ([0; 6], 0),
    ([0; 6], HEADER - 1),
    ([0; 6], HEADER),
    ([0, 0, 0, 0, 1, 0], LONGEST),
    ([0; 6], LONGEST + 1),
    // Event counts: a count that is good goes on to the sections.
    ([2_048, 24, 0, 0, 0, 0], 24),
    ([2_049, 24, 0, 0, 0, 0], 24),
    ([0x8000_0000, 24, 0, 0, 0, 0], 24),
    ([u32::MAX, 24, 0, 0, 0, 0], 24),
    // Image lengths.
    ([0, 0, 4_095, 24, 0, 0], 24),
    ([0, 0, 1, 24, 1, 0], 24),
    ([0, 0, 32_768, 24, 0, 0], 24),
    ([0, 0, 36_864, 24, 0, 0], 24),
    ([0, 0, 0x8000_0000, 24, 0, 0], 24),
    // Maps.
    ([0, 0, 0, 0, 1, 0], 24),
    ([0, 0, 0, 0, 0xFFFF_0000, 0], 24),
    ([0, 0, 0, 0, 0xFFFF_1000, 0], 24),
    ([0, 0, 0, 0, 0xFFFF_F000, 0], 24),
    ([0, 0, 4_096, 24, 0xFFFE_F000, 0], 4_120),
    ([0, 0, 4_096, 24, 0xFFFF_0000, 0], 24),
    ([0, 0, 4_096, 24, 0xFFFF_F000, 0], 24),
    ([1, 0, 0, 0, 0x800, 0], 24),
    // Sections inside the script.
    ([1, 24, 0, 0, 0, 0], 36),
    ([1, 24, 0, 0, 0, 0], 35),
    ([1, 23, 0, 0, 0, 0], 36),
    ([1, 0, 0, 0, 0, 0], 36),
    ([1, 25, 0, 0, 0, 0], 37),
    ([1, 0xFFFF_FFFF, 0, 0, 0, 0], 36),
    ([0, 0, 4_096, 23, 0, 0], 4_120),
    ([0, 0, 4_096, 0xFFFF_F018, 0, 0], 4_120),
    // An empty section is nowhere.
    ([0, 0xFFFF_FFFF, 0, 7, 0, 0], 24),
    ([1, 24, 0, 30, 0, 0], 36),
    ([0, 100, 4_096, 24, 0, 0], 4_120),
    // Sections that touch or share a byte.
    ([1, 24, 4_096, 36, 0, 0], 4_132),
    ([1, 24, 4_096, 35, 0, 0], 4_132),
    ([1, 4_120, 4_096, 24, 0, 0], 4_132),
    ([1, 4_119, 4_096, 24, 0, 0], 4_132),
    ([1, 2_000, 4_096, 24, 0, 0], 4_120),
    ([400, 24, 4_096, 30, 0, 0], 4_824),
    ([1, 24, 4_096, 24, 0, 0], 4_120),
];
