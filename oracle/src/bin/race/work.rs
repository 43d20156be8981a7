//! What both sides are given: a map with its first content, and events as bytes.

use oracle::event::{Event, LENGTH};
use oracle::machine::{KIND_CACHE_READ, KIND_IRET, KIND_LOAD, KIND_OUTPUT, KIND_READ, KIND_WRITE};
use oracle::script::{Script, PAGE};

/// One run. The script has no events of its own: those are encoded once, before any clock.
pub struct Work {
    pub script: Script,
    pub events: Vec<u8>,
}

impl Work {
    /// The events, and behind them those that show the state which they left.
    pub fn new(script: Script, events: impl Iterator<Item = Event>) -> Self {
        let mut bytes = Vec::with_capacity((events.size_hint().0 + 64) * LENGTH);
        for event in events.chain(ending()) {
            bytes.extend_from_slice(&event.encode());
        }
        Self {
            script,
            events: bytes,
        }
    }

    pub fn count(&self) -> u32 {
        (self.events.len() / LENGTH) as u32
    }
}

pub fn event(kind: u8, size: u8, aux: u16, a: u32, b: u32) -> Event {
    Event {
        kind,
        size,
        aux,
        a,
        b,
    }
}

/// Writes a system register.
pub fn write(number: u16, value: u32) -> Event {
    event(KIND_WRITE, 0, number, value, 0)
}

/// Virtual pages that are mapped, one more than the TLB has slots.
pub const MAPPED: u32 = 17;
/// Pages of data behind the two of tables.
pub const FRAMES: u32 = 12;
/// The first of those.
pub const DATA: u32 = 2 * PAGE;
/// Where the mapped pages start.
pub const VIRTUAL: u32 = 0x0010_0000;

/// Two levels of tables in the first two pages, and data that differs from word to word. The seventeen
/// virtual pages share twelve frames, open to the user for everything.
pub fn scene() -> Script {
    let mut image: Vec<u8> = (0..DATA + FRAMES * PAGE).map(|at| (at * 7) as u8).collect();
    image[..DATA as usize].fill(0);
    put(&mut image, 0, PAGE | 1);
    for page in 0..MAPPED {
        let leaf = (DATA + page % FRAMES * PAGE) | 0x1F;
        put(&mut image, PAGE + 4 * (VIRTUAL / PAGE + page), leaf);
    }
    Script {
        image,
        last: 8,
        ..Script::default()
    }
}

fn put(image: &mut [u8], at: u32, word: u32) {
    image[at as usize..][..4].copy_from_slice(&word.to_be_bytes());
}

/// User mode behind the scene's tables.
pub fn translated() -> Vec<Event> {
    let mut events = vec![write(0x41, 0), write(0x40, 1)];
    events.extend(entered());
    events
}

/// User mode with three regions, of which the third has the data.
pub fn regions() -> Vec<Event> {
    let end = DATA + FRAMES * PAGE;
    let bounds = [(0, PAGE, 4), (PAGE, DATA, 1), (DATA, end, 3)];
    let mut events = Vec::new();
    for (number, (start, end, flags)) in (0x10u16..).step_by(4).zip(bounds) {
        events.extend([
            write(number, start),
            write(number + 1, end),
            write(number + 2, flags),
        ]);
    }
    events.extend(entered());
    events
}

/// IRET with PU and PIE set enters user mode.
fn entered() -> [Event; 2] {
    [write(0x00, 0x0A), event(KIND_IRET, 0, 0, 0, 0)]
}

/// A load of each mapped page, whose walk reads say which are resident; then the cache's registers, the
/// system registers and the output.
fn ending() -> impl Iterator<Item = Event> {
    let pages = (0..MAPPED).map(|page| event(KIND_LOAD, 4, 0, VIRTUAL + page * PAGE, 0));
    let cache =
        [0x04, 0x10, 0x14, 0x18, 0x1C].map(|offset| event(KIND_CACHE_READ, 0, 0, offset, 0));
    let system = [0x00, 0x01, 0x02, 0x08, 0x09, 0x0A, 0x40, 0x41, 0x42]
        .map(|number| event(KIND_READ, 0, number, 0, 0));
    let output = event(KIND_OUTPUT, 0, 0, 0, 0);
    pages.chain(cache).chain(system).chain([output])
}
