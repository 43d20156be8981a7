//! The port's interrupt controller, by value over the C border, beside the published one.

use oracle::generate;
use oracle::irqc::{self, Published};
use oracle::port::irqc::Port;
use oracle::random::Random;

use crate::compare::{compare, Pair};

/// Compares `count` random operations.
pub fn run(seed: u64, count: u64) -> Result<String, String> {
    let mut random = Random::new(seed);
    let pair = Pair {
        published: &mut Published::default(),
        port: &mut Port::default(),
        restarts: |event| event.kind == irqc::KIND_RESET,
    };
    let agreed = compare(pair, (0..count).map(|_| generate::irqc::event(&mut random)))?;
    Ok(format!("irqc: {agreed} operations agreed (seed {seed})"))
}
