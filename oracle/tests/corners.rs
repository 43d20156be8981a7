//! Document 01's corner table on the published Rust: P1 to P12. `corner.rs` has the corner that is only
//! run.

use oracle::cpu::InstructionMode;
use oracle::cpu_cache::L1Cache;
use oracle::cpu_privilege::{Access, DebugTranslation, Exception, SystemState};
use oracle::devices::irqc::irqc::IrqController;

fn written(number: u16, value: u32) -> Option<u32> {
    let (mut sys, mut reg) = (SystemState::default(), [0; 32]);
    let known = sys.write_sr(number, value, &mut reg);
    let read = sys.read_sr(number, &reg);
    assert_eq!(known, read.is_some());
    read
}

#[test]
fn p1_to_p3_registers() {
    assert_eq!(SystemState::default().status(), 3);
    assert_eq!(written(0x41, 0x1FFF), Some(0x1000));
    assert_eq!(written(0x13, 1), None);
    assert_eq!(written(0x2E, 0xFF), Some(7));
    assert_eq!(written(0x2F, 1), None);
    assert_eq!(written(0x30, 1), None);
}

#[test]
fn p4_and_p5_causes() {
    assert_eq!(Exception::Syscall(0x1234).cause(), 0x8003_1234);
    let fault = Exception::PageFault {
        access: Access::Write,
        protection: true,
        addr: 0,
    };
    assert_eq!(fault.cause(), 0x8006_000A);
}

/// In user mode with one region.
fn with_region(start: u32, end: u32, flags: u32) -> SystemState {
    let (mut sys, mut reg) = (SystemState::default(), [0; 32]);
    for (number, value) in [(0x10, start), (0x11, end), (0x12, flags), (0, 8)] {
        assert!(sys.write_sr(number, value, &mut reg));
    }
    sys.leave_trap(&mut reg);
    assert!(sys.user);
    sys
}

#[test]
fn p6_and_p7_region_ends() {
    let sys = with_region(0x1000, 0x2000, 1);
    assert!(sys.allows(0x1FFF, 1, Access::Read));
    assert!(!sys.allows(0x2000, 1, Access::Read));
    let sys = with_region(0, 0xFFFF_FFFF, 7);
    assert!(sys.allows(0xFFFE_FFFF, 1, Access::Fetch));
    assert!(!sys.allows(0xFFFF_0000, 1, Access::Fetch));
}

/// Whether address 0 is mapped by these two words.
fn mapped(level1: u32, leaf: u32) -> bool {
    let mut words = vec![Some(leaf), Some(level1)];
    let found = SystemState::default().debug_translate(0, |_| words.pop().flatten());
    matches!(found, DebugTranslation::Mapped { .. })
}

#[test]
fn p8_and_p9_table_words() {
    assert!(!mapped(0x2001, 0x3005));
    assert!(mapped(0x2001, 0x3013));
    assert!(!mapped(0x2003, 0x3013));
}

#[test]
fn p10_lowest_source() {
    let mut irqc = IrqController::new();
    irqc.set_source_levels(0x24, 0x24);
    assert_eq!(irqc.pending(), 0x24);
    for (enable, valid, number) in [(0x20, true, 5), (0x24, true, 2), (0, false, 0)] {
        irqc.set_enable_mask(enable);
        let output = irqc.irq_output();
        assert_eq!((output.valid, output.number), (valid, number));
    }
}

#[test]
fn p11_external_write_of_length_0() {
    let full = || {
        let mut cache = L1Cache::new(0, 0x2000);
        (0..256).for_each(|line| {
            cache.load(line * 32);
            cache.fetch(line * 32);
        });
        cache
    };
    let dropped = |addr| {
        let mut cache = full();
        cache.external_write(addr, 0);
        let state = cache.state();
        assert_eq!(state.i.tags, state.d.tags);
        let empty = |index: &usize| state.d.tags[*index] == u32::MAX;
        (0..256).filter(empty).collect::<Vec<_>>()
    };
    assert_eq!(dropped(0x25), [1]);
    assert!(dropped(0x20).is_empty());
}

#[test]
fn p12_iret_in_user_mode_keeps_the_registers() {
    let mut sys = with_region(0, 0, 0);
    let mut reg = [0; 32];
    reg[28..31].copy_from_slice(&[1, 2, 3]);
    assert!(sys.pu);
    let (_, mode) = sys.leave_trap(&mut reg);
    assert_eq!(reg[28..31], [1, 2, 3]);
    assert!(sys.user && mode == InstructionMode::Normal);
}
