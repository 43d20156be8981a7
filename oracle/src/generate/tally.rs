//! Counts what came of scripts: a generator is only worth what its inputs reach.

use std::fmt::Write;

use crate::generate::outcomes::{Test, ABOVE, OF_ACCESSES, OF_KINDS};
use crate::machine::{KIND_READ, KIND_WRITE};
use crate::script::{Script, REFUSED_HEADER, REFUSED_MAP, REFUSED_SECTION};
use crate::watch::{Seen, Watch};

/// How often each outcome occurred.
pub struct Tally {
    rows: Vec<Row>,
    /// By refusal number; 0 has the good ones.
    scripts: [u64; 6],
    events: u64,
    /// Register numbers that kinds 5 and 6 asked for.
    registers: Vec<bool>,
}

struct Row {
    kind: u8,
    name: String,
    test: Test,
    count: u64,
}

/// Below one in so many events an outcome is rare.
const RARE: u64 = 20_000;
/// Below one in so many scripts a refusal is rare, where scripts are damaged.
const RARE_REFUSAL: u64 = 100;
/// Too few events say nothing about rareness.
const FEWEST: u64 = 500_000;

impl Default for Tally {
    fn default() -> Self {
        let accesses = ["load", "store", "fetch"];
        let of_accesses = (0..).zip(accesses).flat_map(|(kind, access)| {
            OF_ACCESSES.map(|(name, test)| (kind, format!("{access}: {name}"), test))
        });
        let of_kinds = OF_KINDS.map(|(kind, name, test)| (kind, name.to_string(), test));
        let rows = of_accesses
            .filter(|row| !no_fetch(row.0, &row.1))
            .chain(of_kinds);
        Self {
            rows: rows
                .map(|(kind, name, test)| Row {
                    kind,
                    name,
                    test,
                    count: 0,
                })
                .collect(),
            scripts: [0; 6],
            events: 0,
            registers: vec![false; 1 << 16],
        }
    }
}

/// A fetch has no size 1.
fn no_fetch(kind: u8, name: &str) -> bool {
    kind == 2 && name.ends_with("of 1 byte")
}

impl Watch for Tally {
    fn script(&mut self, read: &Result<Script, u32>) {
        let number = read.as_ref().err().copied().unwrap_or(0);
        self.scripts[number as usize] += 1;
    }

    fn event(&mut self, seen: &Seen) {
        self.events += 1;
        let kind = seen.event.kind.min(ABOVE);
        if matches!(kind, KIND_READ | KIND_WRITE) {
            self.registers[usize::from(seen.event.aux)] = true;
        }
        for row in self.rows.iter_mut().filter(|row| row.kind == kind) {
            row.count += u64::from((row.test)(seen));
        }
    }
}

impl Tally {
    /// The counts, one line each.
    pub fn text(&self) -> String {
        let mut text = format!("{:9} events, by outcome:\n", self.events);
        for row in &self.rows {
            let _ = writeln!(text, "{:9} {}", row.count, row.name);
        }
        let asked = self.registers.iter().filter(|asked| **asked).count();
        let _ = writeln!(text, "{asked:9} of 65536 register numbers asked for");
        for (number, count) in self
            .scripts
            .iter()
            .enumerate()
            .filter(|(_, count)| **count > 0)
        {
            let _ = match number {
                0 => writeln!(text, "{count:9} scripts run"),
                _ => writeln!(text, "{count:9} scripts refused with {number}"),
            };
        }
        text
    }

    pub fn events(&self) -> u64 {
        self.events
    }

    /// Outcomes that did not occur.
    pub fn missing(&self) -> Vec<&str> {
        self.below(1)
    }

    /// Outcomes that were rare among the events.
    pub fn rare(&self) -> Vec<&str> {
        if self.events < FEWEST {
            return Vec::new();
        }
        self.below(self.events / RARE)
    }

    fn below(&self, floor: u64) -> Vec<&str> {
        let few = self.rows.iter().filter(|row| row.count < floor);
        few.map(|row| row.name.as_str()).collect()
    }

    /// Refusals that were rare among the scripts.
    pub fn rare_refusals(&self) -> Vec<u32> {
        let floor = (self.scripts.iter().sum::<u64>() / RARE_REFUSAL).max(1);
        let refusals = [REFUSED_MAP, REFUSED_HEADER, REFUSED_SECTION];
        let few = refusals
            .into_iter()
            .filter(|number| self.scripts[*number as usize] < floor);
        few.collect()
    }
}

#[cfg(test)]
mod tests {
    use super::Tally;
    use crate::generate::scripts::stored;
    use crate::store::MACHINE_SEED;
    use crate::watch;

    /// The stored scripts have to reach every outcome.
    #[test]
    fn the_stored_scripts_reach_everything() {
        let mut tally = Tally::default();
        for script in stored(MACHINE_SEED) {
            watch::run(&script, &mut tally);
        }
        assert_eq!(tally.missing(), Vec::<&str>::new());
        assert_eq!(tally.rare_refusals(), Vec::<u32>::new());
    }
}
