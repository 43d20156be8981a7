//! The steps of an access over the published privilege state, shared by the MMU replay, the
//! privilege replay and the machine: which sizes are legal, the check with its walk reads, the
//! data with its bus error, and the TLB as words.

use crate::bus::Bus;
use crate::cpu_privilege::{Access, Exception, SystemState, TlbFlags};
use crate::state::{TlbEntry, SLOTS};

/// Refusal numbers of document 01 that concern one event.
pub const REFUSED_SIZE: u32 = 1;
pub const REFUSED_REGISTER: u32 = 3;
pub const REFUSED_EVENT: u32 = 6;

/// Loads and stores have 1, 2 or 4 bytes, fetches 2 or 4.
pub fn size_is_legal(access: Access, size: u8) -> bool {
    match access {
        Access::Fetch => matches!(size, 2 | 4),
        Access::Read | Access::Write => matches!(size, 1 | 2 | 4),
    }
}

/// The published check, and how many table words it read, a failed one included.
pub fn check(
    sys: &mut SystemState,
    bus: &mut Bus,
    addr: u32,
    size: u8,
    access: Access,
) -> (Result<(), Exception>, u32) {
    bus.take_words_read();
    let verdict = sys.check_access(bus, addr, u32::from(size), access);
    (verdict, bus.take_words_read())
}

/// The data of an allowed load or fetch; none if a byte of it is outside the memory.
pub fn read(sys: &SystemState, bus: &mut Bus, addr: u32, size: u8) -> Option<u32> {
    let value = sys.read_data(bus, addr, u32::from(size));
    (!bus.take_bus_error()).then_some(value)
}

/// Puts the data of an allowed store; false if a byte of it is outside the memory.
pub fn write(sys: &SystemState, bus: &mut Bus, addr: u32, size: u8, value: u32) -> bool {
    sys.write_data(bus, addr, u32::from(size), value);
    !bus.take_bus_error()
}

/// A physical word for `debug_translate`, or none.
pub fn physical_word(bus: &mut Bus, addr: u32) -> Option<u32> {
    let value = bus.read_u32_be(addr);
    (!bus.take_bus_error()).then_some(value)
}

/// The sixteen slots.
pub fn slots(sys: &SystemState) -> [TlbEntry; SLOTS] {
    sys.vm.state().tlb
}

/// The slots as four words each, for a digest.
pub fn slot_words(sys: &SystemState) -> Vec<u32> {
    slots(sys)
        .iter()
        .flat_map(|slot| [u32::from(slot.valid), slot.vpn, slot.ppn, slot.flags])
        .collect()
}

/// The flags at their places in a leaf: R 02, W 04, X 08, U 10.
pub fn flag_bits(flags: TlbFlags) -> u32 {
    u32::from(flags.read) << 1
        | u32::from(flags.write) << 2
        | u32::from(flags.execute) << 3
        | u32::from(flags.user) << 4
}
