//! The states of the parts as plain numbers, laid out as the port lays them out: the published side
//! shows its own in this form (`windows/`), and the port's crosses the C border in it. Two states are
//! equal if all of their fields are.

use crate::digest::Digest;

/// The interrupt controller's three words.
#[repr(C)]
#[derive(Clone, Copy, Debug, Default, PartialEq, Eq)]
pub struct Controller {
    pub pending: u16,
    pub enable: u16,
    pub source_level: u16,
}

/// One bank of the cache.
#[repr(C)]
#[derive(Clone, Copy, Debug, PartialEq, Eq)]
pub struct Bank {
    pub tags: [u32; LINES],
    pub enabled: bool,
    pub hits: u32,
    pub misses: u32,
}

/// Lines of a bank.
pub const LINES: usize = 256;

impl Bank {
    /// A witness of all tags.
    pub fn digest(&self) -> u32 {
        Digest::new().words(&self.tags).value()
    }
}

/// The cache: both banks, the cacheable range and the penalty.
#[repr(C)]
#[derive(Clone, Copy, Debug, PartialEq, Eq)]
pub struct Cache {
    pub i: Bank,
    pub d: Bank,
    pub ram_start: u32,
    pub ram_end: u32,
    pub miss_penalty: u32,
}

/// One translation.
#[repr(C)]
#[derive(Clone, Copy, Debug, Default, PartialEq, Eq)]
pub struct TlbEntry {
    pub valid: bool,
    pub vpn: u32,
    pub ppn: u32,
    pub flags: u32,
}

/// The MMU's registers and its TLB.
#[repr(C)]
#[derive(Clone, Copy, Debug, Default, PartialEq, Eq)]
pub struct Vm {
    pub enabled: bool,
    pub ptbr: u32,
    pub vfault: u32,
    pub tlb: [TlbEntry; SLOTS],
    pub next_victim: usize,
}

/// Entries of the TLB.
pub const SLOTS: usize = 16;

/// The privilege state and R0 to R31. `short` is the instruction mode that IRET restores.
#[repr(C)]
#[derive(Clone, Copy, Debug, PartialEq, Eq)]
pub struct Privilege {
    pub ie: bool,
    pub pie: bool,
    pub user: bool,
    pub pu: bool,
    pub short: bool,
    pub epc: u32,
    pub cause: u32,
    pub other_bank: [u32; 3],
    pub starts: [u32; REGIONS],
    pub ends: [u32; REGIONS],
    pub flags: [u32; REGIONS],
    pub vm: Vm,
    pub reg: [u32; 32],
}

pub const REGIONS: usize = 8;

/// All of the machine but its memory.
#[repr(C)]
#[derive(Clone, Copy, Debug, PartialEq, Eq)]
pub struct Machine {
    pub sys: Privilege,
    pub cache: Cache,
    pub irqc: Controller,
}
