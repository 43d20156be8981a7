//! Both sides in turn, several times: the least time of each, and that they did the same.

use std::time::Duration;

use crate::sides::{self, published, Ran, Side};
use crate::work::Work;

/// The least times of both sides for the same events.
pub struct Pair {
    pub events: u32,
    pub rust: Duration,
    pub port: Duration,
}

impl Pair {
    pub fn new(events: u32) -> Self {
        Self {
            events,
            rust: Duration::MAX,
            port: Duration::MAX,
        }
    }

    pub fn take(&mut self, rust: Duration, port: Duration) {
        self.rust = self.rust.min(rust);
        self.port = self.port.min(port);
    }

    pub fn ratio(&self) -> f64 {
        self.port.as_secs_f64() / self.rust.as_secs_f64()
    }

    /// Nanoseconds that an event took on each side.
    pub fn each(&self) -> (f64, f64) {
        let each = |time: Duration| time.as_nanos() as f64 / f64::from(self.events);
        (each(self.rust), each(self.port))
    }
}

/// Runs the works on one side and then on the other, so often.
pub fn race(works: &[Work], port: Side, repeat: u32) -> Result<Pair, String> {
    let mut pair = Pair::new(works.iter().map(Work::count).sum());
    for _ in 0..repeat {
        let (rust, port) = (pass(works, published), pass(works, port));
        for (index, (rust, port)) in rust.iter().zip(&port).enumerate() {
            same(rust, port).map_err(|what| format!("run {index}: {what}"))?;
        }
        pair.take(time(&rust), time(&port));
    }
    Ok(pair)
}

fn pass(works: &[Work], side: Side) -> Vec<Ran> {
    works.iter().map(side).collect()
}

fn time(runs: &[Ran]) -> Duration {
    runs.iter().map(|ran| ran.time).sum()
}

fn same(rust: &Ran, port: &Ran) -> Result<(), String> {
    if rust.totals != port.totals {
        let (rust, port) = (rust.totals, port.totals);
        return Err(format!(
            "the totals differ\n  Rust {rust:?}\n  port {port:?}"
        ));
    }
    let mut bytes = rust.memory.iter().zip(&port.memory).enumerate();
    match bytes.find(|(_, (rust, port))| rust != port) {
        Some((at, (rust, port))) => Err(format!(
            "memory differs at byte {at:X}: Rust {rust:02X}, port {port:02X}"
        )),
        None => Ok(()),
    }
}

/// The lower bound. It is neither side's step, so both columns have the one figure.
pub fn floor(memory: &[u8], count: u32, repeat: u32) -> Pair {
    let mut pair = Pair::new(count);
    for _ in 0..repeat {
        let (sum, time) = sides::floor(memory, count);
        std::hint::black_box(sum);
        pair.take(time, time);
    }
    pair
}
