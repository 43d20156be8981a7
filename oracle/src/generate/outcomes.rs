//! What may come of an event, each as a test of what was seen: the outcomes that a generator has to
//! reach.

use crate::access::{REFUSED_EVENT, REFUSED_REGISTER, REFUSED_SIZE};
use crate::cpu_privilege::{
    CPU_RESERVED_BASE, SR_PTBR, SR_STATUS, SR_TLBFLUSH, SR_TLBINV, SR_VCTL,
};
use crate::machine::{
    Outcome, KIND_CACHE_READ, KIND_CACHE_WRITE, KIND_CLEAR, KIND_ENABLE, KIND_EXTERNAL, KIND_FETCH,
    KIND_IRET, KIND_LOAD, KIND_OUTPUT, KIND_READ, KIND_REGISTER, KIND_RESET, KIND_SOURCE,
    KIND_STORE, KIND_TRAP, KIND_WRITE,
};
use crate::script::PAGE;
use crate::state::{Machine, TlbEntry};
use crate::watch::Seen;

pub type Test = fn(&Seen) -> bool;

/// Outcomes of a load, a store and a fetch alike.
#[rustfmt::skip]
pub const OF_ACCESSES: [(&str, Test); 38] = [
    ("as supervisor", |s| value(s) && !s.before.sys.user),
    ("by a region", |s| value(s) && by_region(s)),
    ("translated", |s| value(s) && translated(s)),
    ("bus error as supervisor", |s| bus_error(s) && !s.before.sys.user),
    ("bus error by a region", |s| bus_error(s) && by_region(s)),
    ("bus error translated", |s| bus_error(s) && translated(s)),
    ("no region grants its first byte", |s| fault(s, 5) && !granted(s, s.event.a)),
    ("leaves its region", |s| fault(s, 5) && granted(s, s.event.a)),
    ("reserved, by a region", |s| fault(s, 5) && s.event.a >= CPU_RESERVED_BASE),
    ("not present", |s| fault(s, 6) && !protection(s)),
    ("protected", |s| fault(s, 6) && protection(s)),
    ("reserved, translated", |s| fault(s, 6) && s.event.a >= CPU_RESERVED_BASE),
    ("a table word outside", |s| fault(s, 2)),
    ("of another size", |s| refused(s, REFUSED_SIZE)),
    ("no walk", |s| value(s) && translated(s) && s.answer.reads == 0),
    ("one word walked", |s| s.answer.reads == 1),
    ("a page walked", |s| s.answer.reads == 2),
    ("one page walked and one word of the next", |s| s.answer.reads == 3),
    ("two pages walked", |s| s.answer.reads == 4),
    ("over two pages", |s| value(s) && translated(s) && crosses_page(s)),
    ("over two pages, the second denied", |s| fault(s, 6) && crosses_page(s) && allowed(s, s.event.a)),
    ("the second page takes the first one's slot", stolen),
    ("denied, and the leaf is filled", |s| fault(s, 6) && protection(s) && filled(s)),
    ("the leaf lacks U", |s| fault(s, 6) && leaf(s).is_some_and(|leaf| leaf.flags & 0x10 == 0)),
    ("the frame is reserved", |s| fault(s, 6) && leaf(s).is_some_and(|leaf| leaf.ppn << 12 >= CPU_RESERVED_BASE)),
    ("around 2^32 as supervisor", |s| wraps(s) && !s.before.sys.user),
    ("around 2^32 as user", |s| wraps(s) && s.before.sys.user),
    ("from outside into the map", |s| untranslated(s) && !in_map(s, s.event.a) && in_map(s, last(s))),
    ("from the map out", |s| untranslated(s) && in_map(s, s.event.a) && !in_map(s, last(s))),
    ("of 1 byte", |s| value(s) && s.event.size == 1),
    ("of 2 bytes at 0 mod 4", |s| sized(s, 2, 0)),
    ("of 2 bytes at 1 mod 4", |s| sized(s, 2, 1)),
    ("of 2 bytes at 2 mod 4", |s| sized(s, 2, 2)),
    ("of 2 bytes at 3 mod 4", |s| sized(s, 2, 3)),
    ("of 4 bytes at 0 mod 4", |s| sized(s, 4, 0)),
    ("of 4 bytes at 1 mod 4", |s| sized(s, 4, 1)),
    ("of 4 bytes at 2 mod 4", |s| sized(s, 4, 2)),
    ("of 4 bytes at 3 mod 4", |s| sized(s, 4, 3)),
];

/// Outcomes of one kind of events.
#[rustfmt::skip]
pub const OF_KINDS: [(u8, &str, Test); 67] = [
    (KIND_LOAD, "load: hits", |s| s.after.cache.d.hits != s.before.cache.d.hits),
    (KIND_LOAD, "load: misses", |s| s.after.cache.d.misses != s.before.cache.d.misses),
    (KIND_LOAD, "load: stalls", |s| s.answer.stall > 0),
    (KIND_LOAD, "load: with the bank off", |s| value(s) && !s.before.cache.d.enabled),
    (KIND_FETCH, "fetch: hits", |s| s.after.cache.i.hits != s.before.cache.i.hits),
    (KIND_FETCH, "fetch: misses", |s| s.after.cache.i.misses != s.before.cache.i.misses),
    (KIND_FETCH, "fetch: stalls", |s| s.answer.stall > 0),
    (KIND_FETCH, "fetch: with the bank off", |s| value(s) && !s.before.cache.i.enabled),
    (KIND_STORE, "store: drops an instruction line", |s| s.after.cache.i.tags != s.before.cache.i.tags),
    (KIND_STORE, "store: into the root under resident entries", |s| untranslated(s) && value(s) && resident(s) && s.event.a / PAGE == s.before.sys.vm.ptbr / PAGE),
    (KIND_TRAP, "trap: from user mode", |s| s.before.sys.user),
    (KIND_TRAP, "trap: from supervisor mode", |s| !s.before.sys.user),
    (KIND_TRAP, "trap: in Short mode", |s| s.event.aux % 2 == 1),
    (KIND_IRET, "IRET: into user mode", |s| !s.before.sys.user && s.after.sys.user),
    (KIND_IRET, "IRET: stays supervisor", |s| !s.after.sys.user),
    (KIND_IRET, "IRET: in user mode with PU", |s| s.before.sys.user && s.before.sys.pu),
    (KIND_READ, "read register: known", value),
    (KIND_READ, "read register: unknown", |s| refused(s, REFUSED_REGISTER)),
    (KIND_READ, "read register: the user's R28 to R30 as user", |s| bank(s) && s.before.sys.user),
    (KIND_READ, "read register: the user's R28 to R30 as supervisor", |s| bank(s) && !s.before.sys.user),
    (KIND_READ, "read register: of a region", |s| value(s) && region(s)),
    (KIND_WRITE, "write register: unknown", |s| refused(s, REFUSED_REGISTER)),
    (KIND_WRITE, "write register: STATUS", |s| s.event.aux == SR_STATUS),
    (KIND_WRITE, "write register: the user's R28 to R30 as user", |s| bank(s) && s.before.sys.user),
    (KIND_WRITE, "write register: the user's R28 to R30 as supervisor", |s| bank(s) && !s.before.sys.user),
    (KIND_WRITE, "write register: of a region", |s| value(s) && region(s)),
    (KIND_WRITE, "write register: VCTL, with entries resident", |s| s.event.aux == SR_VCTL && resident(s)),
    (KIND_WRITE, "write register: PTBR, with entries resident", |s| s.event.aux == SR_PTBR && resident(s)),
    (KIND_WRITE, "write register: TLBFLUSH, with entries resident", |s| s.event.aux == SR_TLBFLUSH && resident(s)),
    (KIND_WRITE, "write register: TLBINV of a resident page", |s| s.event.aux == SR_TLBINV && s.after.sys.vm != s.before.sys.vm),
    (KIND_WRITE, "write register: TLBINV of another page", |s| s.event.aux == SR_TLBINV && s.after.sys.vm == s.before.sys.vm),
    (KIND_SOURCE, "source: rises and latches", |s| s.after.irqc.pending != s.before.irqc.pending),
    (KIND_SOURCE, "source: rises while pending", |s| s.after.irqc.pending == s.before.irqc.pending && s.after.irqc.source_level > s.before.irqc.source_level),
    (KIND_SOURCE, "source: stays high", |s| s.event.aux < 16 && s.event.size != 0 && s.after.irqc == s.before.irqc),
    (KIND_SOURCE, "source: falls", |s| s.after.irqc.source_level < s.before.irqc.source_level),
    (KIND_SOURCE, "source: 16 to 255", |s| (16..256).contains(&s.event.aux)),
    (KIND_SOURCE, "source: 256 and more", |s| s.event.aux >= 256),
    (KIND_CLEAR, "clear pending: some", |s| s.after.irqc != s.before.irqc),
    (KIND_CLEAR, "clear pending: none", |s| s.after.irqc == s.before.irqc),
    (KIND_ENABLE, "enable", |s| s.after.irqc != s.before.irqc),
    (KIND_OUTPUT, "output: a source", |s| s.answer.outcome != Outcome::Value(0)),
    (KIND_OUTPUT, "output: the lowest of several", |s| (s.before.irqc.pending & s.before.irqc.enable).count_ones() > 1),
    (KIND_OUTPUT, "output: none, but some pending", |s| s.answer.outcome == Outcome::Value(0) && s.before.irqc.pending != 0),
    (KIND_OUTPUT, "output: none pending", |s| s.before.irqc.pending == 0),
    (KIND_EXTERNAL, "external write: of nothing at a line's start", |s| s.event.b == 0 && s.event.a % 32 == 0),
    (KIND_EXTERNAL, "external write: of nothing inside a line", |s| s.event.b == 0 && s.event.a % 32 != 0),
    (KIND_EXTERNAL, "external write: of up to a line", |s| (1..=32).contains(&s.event.b)),
    (KIND_EXTERNAL, "external write: of some lines", |s| (33..8_160).contains(&s.event.b)),
    (KIND_EXTERNAL, "external write: about the whole bank", |s| (8_160..=8_193).contains(&s.event.b)),
    (KIND_EXTERNAL, "external write: more than a bank", |s| s.event.b > 8_193),
    (KIND_EXTERNAL, "external write: every index, lines to spare", |s| lines(s) > 256),
    (KIND_EXTERNAL, "external write: to the top", |s| s.event.a.checked_add(s.event.b).is_none()),
    (KIND_EXTERNAL, "external write: to the top, lines to spare", |s| s.event.a.checked_add(s.event.b).is_none() && lines(s) > 256),
    (KIND_EXTERNAL, "external write: drops a line", |s| s.after.cache != s.before.cache),
    (KIND_CACHE_READ, "read cache register: not 0", |s| s.answer.outcome != Outcome::Value(0)),
    (KIND_CACHE_READ, "read cache register: unknown", |s| !matches!(s.event.a, 0 | 4 | 0x10 | 0x14 | 0x18 | 0x1C)),
    (KIND_CACHE_WRITE, "write cache register: turns a bank on or off", |s| enables(s.before) != enables(s.after)),
    (KIND_CACHE_WRITE, "write cache register: empties a bank", |s| s.event.a == 4 && s.event.b & 0x300 != 0 && s.after.cache != s.before.cache),
    (KIND_CACHE_WRITE, "write cache register: clears counts", |s| s.event.a == 4 && s.event.b & 0x400 != 0 && s.after.cache != s.before.cache),
    (KIND_CACHE_WRITE, "write cache register: another", |s| s.event.a != 4),
    (KIND_RESET, "reset: in user mode", |s| s.before.sys.user),
    (KIND_RESET, "reset: with entries resident", resident),
    (KIND_RESET, "reset: with a source high", |s| s.before.irqc.source_level != 0),
    (KIND_REGISTER, "set register", value),
    (KIND_REGISTER, "set register: R28 to R30 in user mode", |s| s.before.sys.user && (28..31).contains(&s.event.size)),
    (KIND_REGISTER, "set register: above 31", |s| refused(s, REFUSED_EVENT)),
    (ABOVE, "a kind above 15", |s| refused(s, REFUSED_EVENT)),
];

/// Stands for all kinds above 15.
pub const ABOVE: u8 = 16;

fn value(s: &Seen) -> bool {
    matches!(s.answer.outcome, Outcome::Value(_))
}

fn bus_error(s: &Seen) -> bool {
    s.answer.outcome == Outcome::BusError
}

fn refused(s: &Seen, number: u32) -> bool {
    s.answer.outcome == Outcome::Refusal(number)
}

/// An exception of this code.
fn fault(s: &Seen, code: u32) -> bool {
    matches!(s.answer.outcome, Outcome::Exception(cause) if cause >> 16 & 0xFF == code)
}

/// Bit 3 of a page fault's CAUSE.
fn protection(s: &Seen) -> bool {
    matches!(s.answer.outcome, Outcome::Exception(cause) if cause & 8 != 0)
}

fn translated(s: &Seen) -> bool {
    s.before.sys.user && s.before.sys.vm.enabled
}

fn untranslated(s: &Seen) -> bool {
    !translated(s)
}

fn by_region(s: &Seen) -> bool {
    s.before.sys.user && !s.before.sys.vm.enabled
}

/// The bit of a region's FLAGS for the access of kinds 0 to 2.
fn access_bit(s: &Seen) -> u32 {
    1 << s.event.kind
}

fn granted(s: &Seen, addr: u32) -> bool {
    let sys = &s.before.sys;
    (0..sys.starts.len())
        .any(|n| sys.flags[n] & access_bit(s) != 0 && (sys.starts[n]..sys.ends[n]).contains(&addr))
}

/// The address of an access's last byte.
fn last(s: &Seen) -> u32 {
    s.event
        .a
        .wrapping_add(u32::from(s.event.size))
        .wrapping_sub(1)
}

fn legal(s: &Seen) -> bool {
    !refused(s, REFUSED_SIZE)
}

fn wraps(s: &Seen) -> bool {
    legal(s) && last(s) < s.event.a
}

fn crosses_page(s: &Seen) -> bool {
    s.event.a / PAGE != last(s) / PAGE
}

/// The lines that an external write covers.
fn lines(s: &Seen) -> u32 {
    let end = s.event.a.saturating_add(s.event.b);
    end.div_ceil(32).saturating_sub(s.event.a / 32)
}

/// The map is the cacheable range; an address of the range's saturated end is in no map.
fn in_map(s: &Seen, addr: u32) -> bool {
    (s.before.cache.ram_start..s.before.cache.ram_end).contains(&addr)
}

fn sized(s: &Seen, size: u8, place: u32) -> bool {
    value(s) && s.event.size == size && s.event.a % 4 == place
}

/// The entry of a page after the event.
fn entry(s: &Seen, addr: u32) -> Option<TlbEntry> {
    let slots = s.after.sys.vm.tlb.iter();
    let found = slots
        .copied()
        .find(|entry| entry.valid && entry.vpn == addr / PAGE);
    found.filter(|_| translated(s))
}

/// The entry of the access's first page.
fn leaf(s: &Seen) -> Option<TlbEntry> {
    entry(s, s.event.a)
}

/// The page of this address is resident and open to the access.
fn allowed(s: &Seen, addr: u32) -> bool {
    entry(s, addr)
        .is_some_and(|entry| entry.flags & 0x10 != 0 && entry.flags & access_bit(s) << 1 != 0)
}

/// Both pages passed the check, and the first is not resident any more.
fn stolen(s: &Seen) -> bool {
    translated(s) && !fault(s, 6) && legal(s) && crosses_page(s) && leaf(s).is_none()
}

fn filled(s: &Seen) -> bool {
    s.after.sys.vm != s.before.sys.vm
}

fn resident(s: &Seen) -> bool {
    s.before.sys.vm.tlb.iter().any(|entry| entry.valid)
}

fn bank(s: &Seen) -> bool {
    (0x08..=0x0A).contains(&s.event.aux)
}

fn region(s: &Seen) -> bool {
    (0x10..0x30).contains(&s.event.aux)
}

fn enables(machine: &Machine) -> (bool, bool) {
    (machine.cache.i.enabled, machine.cache.d.enabled)
}
