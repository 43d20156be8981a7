//! The port's L1 tag cache, by value over the C border, beside the published one.

use oracle::cache::{self, Published};
use oracle::generate::cache::Generator;
use oracle::port::cache::Port;

use crate::compare::{compare, Pair};

/// Compares `count` random operations.
pub fn run(seed: u64, count: u64) -> Result<String, String> {
    let mut generator = Generator::new(seed);
    let pair = Pair {
        published: &mut Published::default(),
        port: &mut Port::default(),
        restarts: |event| event.kind == cache::KIND_NEW,
    };
    let agreed = compare(pair, (0..count).map(|_| generator.event()))?;
    Ok(format!("cache: {agreed} operations agreed (seed {seed})"))
}
