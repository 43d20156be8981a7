//! A mix of all kinds of events, as in the generator's scripts.

use oracle::event::Event;
use oracle::generate::scripts::long;
use oracle::machine::KIND_EXTERNAL;
use oracle::script::Script;

use crate::work::Work;

/// The generator's long scripts from seed 1 on, each over its own image with a new machine: over one image
/// the others' events would find no tables.
pub fn mix(count: u32) -> Vec<Work> {
    let mut works = Vec::new();
    let mut events = 0;
    let scripts = (1..).filter_map(|seed| Script::read(&long(seed)).ok());
    for mut script in scripts {
        let own = std::mem::take(&mut script.events);
        let work = Work::new(script, own.into_iter().map(shortened));
        events += work.count();
        works.push(work);
        if events >= count {
            break;
        }
    }
    works
}

/// Some scripts sweep up to 2^27 lines of the cache in one event. The Rust visits each, which would hide all other
/// events: every sweep is cut to less than two banks, as the generator cuts most. The row `sweeps` has the long ones.
pub fn shortened(event: Event) -> Event {
    match event.kind {
        KIND_EXTERNAL => Event {
            b: event.b % 0x4000,
            ..event
        },
        _ => event,
    }
}
