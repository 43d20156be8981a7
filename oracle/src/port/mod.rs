//! The port's proved code, called over the C border. `tools/staticlib bridge` makes the library.
//!
//! Every call is safe for the same reason: the port's functions take and return plain values, are
//! proved to return for all of them, and touch no memory but the slices that are lent to them.

pub mod cache;
pub mod irqc;
pub mod machine;
pub mod mmu;
pub mod privilege;
