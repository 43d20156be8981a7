//! The rows of the table that are runs over events: what each does, and what it is to take.

use oracle::event::Event;
use oracle::machine::{
    KIND_CLEAR, KIND_ENABLE, KIND_EXTERNAL, KIND_FETCH, KIND_IRET, KIND_LOAD, KIND_OUTPUT,
    KIND_SOURCE, KIND_STORE, KIND_TRAP,
};
use oracle::script::PAGE;

use crate::mix::mix;
use crate::sides::{place, port, port_by_value, port_lent, Side};
use crate::work::{event, regions, scene, translated, Work, DATA, FRAMES, MAPPED, VIRTUAL};

pub struct Row {
    pub name: &'static str,
    /// What share of the count is run, where an event takes longer.
    share: u32,
    work: fn(u32) -> Vec<Work>,
    pub port: Side,
    /// The port's time over the Rust's.
    pub target: f64,
}

impl Row {
    pub fn work(&self, count: u32) -> Vec<Work> {
        (self.work)((count / self.share).max(1))
    }
}

const fn row(name: &'static str, target: f64, share: u32, work: fn(u32) -> Vec<Work>) -> Row {
    Row {
        name,
        share,
        work,
        port,
        target,
    }
}

/// A row whose port side is one by-value call an event.
const fn call(name: &'static str, work: fn(u32) -> Vec<Work>) -> Row {
    Row {
        name,
        share: 50,
        work,
        port: port_by_value,
        target: 1.0,
    }
}

/// A row whose port side is one call an event over a state that the caller holds.
const fn lent(name: &'static str, work: fn(u32) -> Vec<Work>) -> Row {
    Row {
        name,
        share: 1,
        work,
        port: port_lent,
        target: 1.0,
    }
}

pub const ROWS: [Row; 17] = [
    row("loads", 0.35, 1, loads),
    row("stores", 0.5, 1, stores),
    row("fetches", 0.5, 1, fetches),
    row("misses", 1.0, 5, misses),
    row("crossings", 1.0, 5, crossings),
    row("regions", 1.0, 1, region_loads),
    row("supervisor", 1.0, 1, supervisor),
    row("controller", 1.0, 1, controller),
    row("traps", 1.0, 1, traps),
    row("mix", 1.0, 10, mix),
    row("sweeps", 0.001, 1_000_000, sweeps),
    call("load-call", loads),
    call("store-call", stores),
    call("fetch-call", fetches),
    lent("load-lent", loads),
    lent("store-lent", stores),
    lent("fetch-lent", fetches),
];

/// Events after a set-up, over the scene.
fn over_scene(set_up: Vec<Event>, count: u32, each: fn(u32) -> Event) -> Vec<Work> {
    let events = set_up.into_iter().chain((0..count).map(each));
    vec![Work::new(scene(), events)]
}

/// Resident after their first touch: twelve pages, sixteen slots.
pub fn loads(count: u32) -> Vec<Work> {
    over_scene(translated(), count, |i| {
        event(KIND_LOAD, 4, 0, VIRTUAL + place(i), 0)
    })
}

fn stores(count: u32) -> Vec<Work> {
    over_scene(translated(), count, |i| {
        event(KIND_STORE, 4, 0, VIRTUAL + place(i), i)
    })
}

fn fetches(count: u32) -> Vec<Work> {
    over_scene(translated(), count, |i| {
        event(KIND_FETCH, 4, 0, VIRTUAL + place(i), 0)
    })
}

/// One page more than there are slots, in turn: slots are refilled in turn too, so each load walks.
fn misses(count: u32) -> Vec<Work> {
    over_scene(translated(), count, |i| {
        let page = VIRTUAL + i % MAPPED * PAGE;
        event(KIND_LOAD, 4, 0, page + i % (PAGE / 4) * 4, 0)
    })
}

/// Over the ends between the twelve pages, eighteen accesses at one and then at the next: each kind, with four
/// bytes and with two, of which one, two or three lie before the end. Slots are free for all twelve, so no page
/// takes another's.
fn crossings(count: u32) -> Vec<Work> {
    over_scene(translated(), count, |i| {
        let kind = [KIND_LOAD, KIND_STORE, KIND_FETCH][i as usize % 3];
        let (size, before) = [(4, 1), (2, 1), (4, 2), (2, 1), (4, 3), (2, 1)][i as usize / 3 % 6];
        let end = VIRTUAL + (1 + i / 18 % (FRAMES - 1)) * PAGE;
        event(kind, size, 0, end - before, i)
    })
}

fn region_loads(count: u32) -> Vec<Work> {
    over_scene(regions(), count, |i| {
        event(KIND_LOAD, 4, 0, DATA + place(i), 0)
    })
}

fn supervisor(count: u32) -> Vec<Work> {
    over_scene(Vec::new(), count, |i| {
        event(KIND_LOAD, 4, 0, DATA + place(i), 0)
    })
}

/// All sixteen lines in turn: a source rises, the output is asked, the source is cleared and falls.
fn controller(count: u32) -> Vec<Work> {
    let enable = vec![event(KIND_ENABLE, 0, u16::MAX, 0, 0)];
    over_scene(enable, count, |i| {
        let line = (i / 4 % 16) as u16;
        match i % 4 {
            0 => event(KIND_SOURCE, 1, line, 0, 0),
            1 => event(KIND_OUTPUT, 0, 0, 0, 0),
            2 => event(KIND_CLEAR, 0, 1 << line, 0, 0),
            _ => event(KIND_SOURCE, 0, line, 0, 0),
        }
    })
}

/// Out of user mode and back, R28 to R30 exchanged each time.
fn traps(count: u32) -> Vec<Work> {
    over_scene(translated(), count, |i| match i % 2 {
        0 => event(KIND_TRAP, 0, (i / 2 % 2) as u16, i, 7),
        _ => event(KIND_IRET, 0, 0, 0, 0),
    })
}

/// External writes of nearly 4 GiB, from mid-line on. Behind each comes a load of one word: its stall shows that
/// the line is gone.
fn sweeps(count: u32) -> Vec<Work> {
    over_scene(Vec::new(), 2 * count, |i| match i % 2 {
        0 => event(KIND_EXTERNAL, 0, 0, 5 + 16 * i, 0xFFFF_F000),
        _ => event(KIND_LOAD, 4, 0, DATA, 0),
    })
}

#[cfg(test)]
mod tests {
    use super::{crossings, mix, sweeps, Row, ROWS};
    use crate::sides::{port_lent, published, Totals};
    use crate::work::translated;
    use oracle::event::{Event, LENGTH};
    use oracle::script::PAGE;

    const COUNT: u32 = 10_000;

    fn totals(name: &str) -> (u32, Totals) {
        let row: &Row = ROWS.iter().find(|row| row.name == name).expect("a row");
        let works = row.work(COUNT * row.share);
        (works[0].count(), published(&works[0]).totals)
    }

    /// Nothing is refused or denied, so each row measures what it is named after.
    #[test]
    fn accesses_answer_values() {
        for name in ["loads", "stores", "fetches", "misses", "crossings", "traps"] {
            let (events, totals) = totals(name);
            assert_eq!(totals.values, u64::from(events), "{name}");
        }
    }

    /// Twelve pages are walked for once. The last loads find twelve of the seventeen pages resident.
    #[test]
    fn pages_are_resident() {
        for name in ["loads", "stores", "fetches", "crossings"] {
            assert_eq!(totals(name).1.reads, 2 * (12 + 5), "{name}");
        }
    }

    #[test]
    fn crossings_lie_over_two_pages() {
        let works = crossings(COUNT);
        let (rows, _) = works[0].events.as_chunks::<LENGTH>();
        let own = rows[translated().len()..][..COUNT as usize].iter();
        for Event { size, a, .. } in own.map(Event::decode) {
            let last = a + u32::from(size) - 1;
            assert_eq!(last / PAGE, a / PAGE + 1, "{size} bytes at {a:X}");
        }
    }

    /// Ten thousand loads end before page 4, so the last ones, from page 0 on, find four pages resident.
    #[test]
    fn each_miss_walks() {
        assert_eq!(totals("misses").1.reads, 2 * u64::from(COUNT + 13));
    }

    /// Only the last loads, which are of addresses that mean nothing there, are denied or go nowhere.
    #[test]
    fn region_and_supervisor_loads_pass() {
        assert_eq!(totals("regions").1.exceptions, 17);
        assert_eq!(totals("supervisor").1.bus_errors, 17);
    }

    /// Each load behind a sweep misses.
    #[test]
    fn sweeps_drop_the_line() {
        let [work] = &sweeps(2)[..] else {
            panic!("one run");
        };
        let stall = published(work).totals.stall;
        assert_eq!(stall, 2 * u64::from(work.script.last));
    }

    /// The calls over a lent state agree on events of all kinds.
    #[test]
    fn lent_calls_agree() {
        for work in mix(COUNT) {
            let (rust, port) = (published(&work), port_lent(&work));
            assert_eq!(rust.totals, port.totals);
            assert!(rust.memory == port.memory);
        }
    }

    #[test]
    fn the_mix_has_every_letter() {
        let (_, totals) = totals("mix");
        for letters in [
            totals.values,
            totals.exceptions,
            totals.bus_errors,
            totals.refusals,
        ] {
            assert!(letters > 0);
        }
    }
}
