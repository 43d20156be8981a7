//! The port's TLB, walk and page check, by value over the C border and over lent memory, beside
//! the published ones.

use oracle::event::Event;
use oracle::generate;
use oracle::mmu::{self, Published};
use oracle::port::mmu::Port;

use crate::compare::{compare, Pair};

/// Operations over one set of tables; then come others.
const OPERATIONS: u64 = 2_000;

/// Compares `count` random operations, over as many tables as that takes.
pub fn run(seed: u64, count: u64) -> Result<String, String> {
    let (mut agreed, mut checks, mut tables) = (0, 0, 0);
    while agreed < count {
        let wanted = OPERATIONS.min(count - agreed);
        let script = generate::mmu::script(seed.wrapping_add(tables), wanted as usize);
        checks += script.events.iter().filter(|event| is_check(event)).count();
        let pair = Pair {
            published: &mut Published::new(&script),
            port: &mut Port::new(&script),
            restarts: |_| false,
        };
        let place = |error| format!("tables of seed {}: {error}", seed.wrapping_add(tables));
        agreed += compare(pair, script.events.iter().copied()).map_err(place)?;
        tables += 1;
    }
    Ok(format!(
        "mmu: {agreed} operations agreed, {checks} of them checks, over {tables} tables (seed {seed})"
    ))
}

fn is_check(event: &Event) -> bool {
    matches!(
        event.kind,
        mmu::KIND_READ | mmu::KIND_WRITE | mmu::KIND_FETCH
    )
}
