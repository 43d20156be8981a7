//! The corner of document 01's table that is only run, on the published Rust: the figures that the
//! port's program `corner` prints.

use std::fs;
use std::path::Path;

use oracle::access::{check, read, slots};
use oracle::bus::Bus;
use oracle::cpu_privilege::{Access, SystemState};
use oracle::state::TlbEntry;

const VA: u32 = 0x5FFE;

/// Tables in physical pages 1 and 2: page 6 leads to 0x21, pages 5 and 7 to 21 to page 3. The four
/// bytes that are read differ from each other and from those in page 5's frame.
fn memory() -> Bus {
    let mut bus = Bus::new(0, &[0; 0x22000]);
    bus.write_u32_be(0x1000, 0x2001);
    for page in 5..22 {
        let frame = if page == 6 { 0x21 } else { 3 };
        bus.write_u32_be(0x2000 + 4 * page, frame << 12 | 0x13);
    }
    for (at, byte) in [
        (0xFFE, 0xA1),
        (0xFFF, 0xA2),
        (0x21000, 0xA3),
        (0x21001, 0xA4),
        (0x3FFE, 0xB1),
        (0x3FFF, 0xB2),
    ] {
        bus.write_u8(at, byte);
    }
    bus
}

/// In user mode with translation on; the TLB is full, slot 0 alone holds page 5, and the next fill
/// takes slot 0.
fn full_state(bus: &mut Bus) -> SystemState {
    let mut sys = SystemState::default();
    sys.user = true;
    sys.vm.enabled = true;
    sys.vm.ptbr = 0x1000;
    let pages: Vec<u32> = [5].into_iter().chain(7..22).collect();
    for page in &pages {
        assert_eq!(
            check(&mut sys, bus, page << 12, 4, Access::Read),
            (Ok(()), 2)
        );
    }
    assert_eq!(sys.mmu_snapshot().next_victim, 0);
    let full = pages.iter().map(|page| slot(*page, 3));
    assert_eq!(slots(&sys).to_vec(), full.collect::<Vec<_>>());
    sys
}

/// A user-readable page.
fn slot(vpn: u32, ppn: u32) -> TlbEntry {
    TlbEntry {
        valid: true,
        vpn,
        ppn,
        flags: 0x12,
    }
}

/// The load: its value and walk reads, `next_victim` and slot 0 after it.
fn loaded() -> (u32, u32, usize, TlbEntry) {
    let mut bus = memory();
    let mut sys = full_state(&mut bus);
    let (verdict, reads) = check(&mut sys, &mut bus, VA, 4, Access::Read);
    assert_eq!(verdict, Ok(()));
    let places = [0, 1, 2, 3].map(|byte| sys.physical(VA + byte));
    assert_eq!(places, [0xFFE, 0xFFF, 0x21000, 0x21001]);
    let value = read(&sys, &mut bus, VA, 4).expect("all four bytes are in the map");
    (value, reads, sys.mmu_snapshot().next_victim, slots(&sys)[0])
}

#[test]
fn the_fill_takes_the_first_page() {
    assert_eq!(loaded(), (0xA1A2_A3A4, 2, 1, slot(6, 0x21)));
}

#[test]
fn the_port_prints_the_same() {
    let (value, reads, next, slot) = loaded();
    let line = format!(
        "{value:08X} {reads} {next} {:X} {:08X} {:08X} {:02X}\n",
        u32::from(slot.valid),
        slot.vpn,
        slot.ppn,
        slot.flags
    );
    let printed = Path::new(env!("CARGO_MANIFEST_DIR")).join("../crates/corner/stdout");
    assert_eq!(fs::read_to_string(printed).ok(), Some(line));
}
