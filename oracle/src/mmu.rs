//! The MMU: the published check and translation over tables in memory, in user mode with
//! translation on.
//!
//! The input has the form of a script whose last header word is the first PTBR, low bits kept.
//! Kinds: 0, 1, 2 check a read, write, fetch of `size` bytes at `a`; 3 flush; 4 TLBINV of `a`;
//! 5 PTBR becomes `a`, with no flush; 6 the physical word at `a` becomes `b`; 7 `debug_translate`
//! of `a`; others change nothing.

use crate::access::{check, flag_bits, physical_word, size_is_legal, slot_words};
use crate::bus::Bus;
use crate::cpu_privilege::{Access, DebugTranslation, Exception, SystemState, SR_TLBINV};
use crate::digest::Digest;
use crate::event::{Event, Replay};
use crate::script::Script;

pub const KIND_READ: u8 = 0;
pub const KIND_WRITE: u8 = 1;
pub const KIND_FETCH: u8 = 2;
pub const KIND_FLUSH: u8 = 3;
pub const KIND_INVALIDATE: u8 = 4;
pub const KIND_PTBR: u8 = 5;
pub const KIND_POKE: u8 = 6;
pub const KIND_TRANSLATE: u8 = 7;

/// Added to a translation's flags if a TLB slot served it.
const IN_TLB: u32 = 0x100;

/// An answer before the state: letter, two numbers, walk reads (of checks alone).
type Answer = (char, u32, u32, u32);

const NOTHING: Answer = ('-', 0, 0, 0);

/// The published privilege state and its memory.
pub struct Published {
    sys: SystemState,
    bus: Bus,
}

impl Published {
    pub fn new(script: &Script) -> Self {
        let mut sys = SystemState::default();
        sys.user = true;
        sys.vm.enabled = true;
        sys.vm.ptbr = script.last;
        Self {
            sys,
            bus: Bus::new(script.base, &script.image),
        }
    }

    fn answer(&mut self, event: &Event) -> Answer {
        match event.kind {
            KIND_READ => return self.check(event, Access::Read),
            KIND_WRITE => return self.check(event, Access::Write),
            KIND_FETCH => return self.check(event, Access::Fetch),
            KIND_FLUSH => self.sys.vm.flush(),
            KIND_INVALIDATE => {
                self.sys.write_sr(SR_TLBINV, event.a, &mut [0; 32]);
            }
            KIND_PTBR => self.sys.vm.ptbr = event.a,
            KIND_POKE => {
                self.bus.write_u32_be(event.a, event.b);
                self.bus.take_bus_error();
            }
            KIND_TRANSLATE => return self.translate(event.a),
            _ => {}
        }
        NOTHING
    }

    fn check(&mut self, event: &Event, access: Access) -> Answer {
        if !size_is_legal(access, event.size) {
            return NOTHING;
        }
        let (verdict, reads) = check(&mut self.sys, &mut self.bus, event.a, event.size, access);
        match verdict {
            Ok(()) => ('A', 0, 0, reads),
            Err(exception) => ('X', exception.cause(), fault_address(exception), reads),
        }
    }

    fn translate(&mut self, addr: u32) -> Answer {
        let bus = &mut self.bus;
        match self.sys.debug_translate(addr, |pa| physical_word(bus, pa)) {
            DebugTranslation::Mapped {
                physical,
                flags,
                in_tlb,
            } => {
                let served = if in_tlb { IN_TLB } else { 0 };
                ('M', physical, flag_bits(flags) | served, 0)
            }
            DebugTranslation::Unmapped => ('U', 0, 0, 0),
            DebugTranslation::BusError => ('E', 0, 0, 0),
        }
    }
}

/// The address that a page fault carries; 0 for the others.
fn fault_address(exception: Exception) -> u32 {
    match exception {
        Exception::PageFault { addr, .. } => addr,
        _ => 0,
    }
}

impl Replay for Published {
    fn step(&mut self, event: &Event) -> String {
        let (letter, value, addr, reads) = self.answer(event);
        let next = self.sys.mmu_snapshot().next_victim;
        let tlb = Digest::new().words(&slot_words(&self.sys)).value();
        format!("{letter} {value:08X} {addr:08X} {reads} {next} {tlb:08X}")
    }
}
