//! The privilege state: traps, system registers, regions, checks and data, by the published code.
//!
//! The input has the form of a script (its last header word is unused). Kinds: 0 load, 1 store of
//! `b`, 2 fetch of `size` bytes at `a`; 3 trap with EPC `a`, CAUSE `b`, Short if `aux` is odd;
//! 4 IRET; 5 read system register `aux`; 6 write `a` to it; 7 check alone of access `b % 3` (read,
//! write, fetch); 8 `allows` of the same; 9 `physical` of `a`; 10 `debug_translate` of `a`;
//! 11 register `size % 32` becomes `a`; 12 each system register number in order is written with `a`
//! and read back, and the value is the digest of those answers; others change nothing.

use crate::access::{self, physical_word, size_is_legal, slot_words};
use crate::access::{REFUSED_REGISTER, REFUSED_SIZE};
use crate::bus::Bus;
use crate::cpu::InstructionMode;
use crate::cpu_privilege::{Access, DebugTranslation, SystemState};
use crate::digest::Digest;
use crate::event::{Event, Replay};
use crate::script::Script;

pub const KIND_LOAD: u8 = 0;
pub const KIND_STORE: u8 = 1;
pub const KIND_FETCH: u8 = 2;
pub const KIND_TRAP: u8 = 3;
pub const KIND_IRET: u8 = 4;
pub const KIND_READ: u8 = 5;
pub const KIND_WRITE: u8 = 6;
pub const KIND_CHECK: u8 = 7;
pub const KIND_ALLOWS: u8 = 8;
pub const KIND_PHYSICAL: u8 = 9;
pub const KIND_TRANSLATE: u8 = 10;
pub const KIND_REGISTER: u8 = 11;
pub const KIND_EVERY_REGISTER: u8 = 12;

/// An event's answer. The walk reads are those of checks.
struct Answer {
    letter: char,
    value: u32,
    mode: u32,
    reads: u32,
}

impl Answer {
    fn new(letter: char, value: u32, reads: u32) -> Self {
        Self {
            letter,
            value,
            mode: 0,
            reads,
        }
    }

    fn value(value: u32) -> Self {
        Self::new('V', value, 0)
    }

    fn refused(number: u32) -> Self {
        Self::new('N', number, 0)
    }

    /// Letter and value, for a digest.
    fn words(&self) -> [u32; 2] {
        [u32::from(self.letter), self.value]
    }
}

/// The published privilege state, the registers and the memory.
pub struct Published {
    sys: SystemState,
    reg: [u32; 32],
    bus: Bus,
}

impl Published {
    pub fn new(script: &Script) -> Self {
        Self {
            sys: SystemState::default(),
            reg: [0; 32],
            bus: Bus::new(script.base, &script.image),
        }
    }

    fn answer(&mut self, event: &Event) -> Answer {
        match event.kind {
            KIND_LOAD => self.access(event, Access::Read),
            KIND_STORE => self.access(event, Access::Write),
            KIND_FETCH => self.access(event, Access::Fetch),
            KIND_TRAP => self.trap(event),
            KIND_IRET => self.iret(),
            KIND_READ => self.read_register(event.aux),
            KIND_WRITE => self.write_register(event.aux, event.a),
            KIND_CHECK => self.checked(event, chosen_access(event), |_, _| Some(0)),
            KIND_ALLOWS => self.allows(event),
            KIND_PHYSICAL => Answer::value(self.sys.physical(event.a)),
            KIND_TRANSLATE => self.translate(event.a),
            KIND_REGISTER => {
                self.reg[usize::from(event.size % 32)] = event.a;
                Answer::value(0)
            }
            KIND_EVERY_REGISTER => self.every_register(event.a),
            _ => Answer::value(0),
        }
    }

    fn read_register(&self, number: u16) -> Answer {
        match self.sys.read_sr(number, &self.reg) {
            Some(value) => Answer::value(value),
            None => Answer::refused(REFUSED_REGISTER),
        }
    }

    fn write_register(&mut self, number: u16, value: u32) -> Answer {
        match self.sys.write_sr(number, value, &mut self.reg) {
            true => Answer::value(0),
            false => Answer::refused(REFUSED_REGISTER),
        }
    }

    /// Each number on the state that the one before left.
    fn every_register(&mut self, value: u32) -> Answer {
        let digest = (0..=u16::MAX).fold(Digest::new(), |digest, number| {
            let written = self.write_register(number, value);
            let read = self.read_register(number);
            digest.words(&written.words()).words(&read.words())
        });
        Answer::value(digest.value())
    }

    fn access(&mut self, event: &Event, access: Access) -> Answer {
        let Event { size, a, b, .. } = *event;
        self.checked(event, access, |sys, bus| match access {
            Access::Write => access::write(sys, bus, a, size, b).then_some(0),
            Access::Read | Access::Fetch => access::read(sys, bus, a, size),
        })
    }

    /// Size, then check, then `data`, which answers none on a bus error.
    fn checked(
        &mut self,
        event: &Event,
        access: Access,
        data: impl Fn(&SystemState, &mut Bus) -> Option<u32>,
    ) -> Answer {
        if !size_is_legal(access, event.size) {
            return Answer::refused(REFUSED_SIZE);
        }
        let (verdict, reads) =
            access::check(&mut self.sys, &mut self.bus, event.a, event.size, access);
        if let Err(exception) = verdict {
            return Answer::new('X', exception.cause(), reads);
        }
        match data(&self.sys, &mut self.bus) {
            Some(value) => Answer::new('V', value, reads),
            None => Answer::new('B', 0, reads),
        }
    }

    fn allows(&self, event: &Event) -> Answer {
        let access = chosen_access(event);
        if !size_is_legal(access, event.size) {
            return Answer::refused(REFUSED_SIZE);
        }
        let allowed = self.sys.allows(event.a, u32::from(event.size), access);
        Answer::value(u32::from(allowed))
    }

    fn trap(&mut self, event: &Event) -> Answer {
        let mode = match event.aux % 2 {
            0 => InstructionMode::Normal,
            _ => InstructionMode::Short,
        };
        self.sys.enter_trap(&mut self.reg, event.a, event.b, mode);
        Answer::value(0)
    }

    fn iret(&mut self) -> Answer {
        let (epc, mode) = self.sys.leave_trap(&mut self.reg);
        Answer {
            mode: u32::from(mode == InstructionMode::Short),
            ..Answer::value(epc)
        }
    }

    fn translate(&mut self, addr: u32) -> Answer {
        let bus = &mut self.bus;
        match self.sys.debug_translate(addr, |pa| physical_word(bus, pa)) {
            DebugTranslation::Mapped { physical, .. } => Answer::value(physical),
            DebugTranslation::Unmapped => Answer::new('X', 0, 0),
            DebugTranslation::BusError => Answer::new('B', 0, 0),
        }
    }

    /// A witness of everything that the line does not show.
    fn digest(&self) -> u32 {
        let state = self.sys.snapshot(&self.reg);
        let regions: Vec<u32> = state
            .regions
            .iter()
            .flat_map(|region| [region.start, region.end, region.flags])
            .collect();
        let mmu = [
            u32::from(state.mmu.enabled),
            state.mmu.ptbr,
            state.mmu.vfault,
            state.mmu.next_victim as u32,
        ];
        Digest::new()
            .words(&state.user_bank)
            .words(&self.reg)
            .words(&regions)
            .words(&mmu)
            .words(&slot_words(&self.sys))
            .bytes(self.bus.bytes())
            .value()
    }
}

/// The access of a check without data.
fn chosen_access(event: &Event) -> Access {
    match event.b % 3 {
        0 => Access::Read,
        1 => Access::Write,
        _ => Access::Fetch,
    }
}

impl Replay for Published {
    fn step(&mut self, event: &Event) -> String {
        let answer = self.answer(event);
        let sys = &self.sys;
        format!(
            "{} {:08X} {:X} {} {:08X} {:08X} {:08X} {:08X}",
            answer.letter,
            answer.value,
            answer.mode,
            answer.reads,
            sys.status(),
            sys.epc,
            sys.cause,
            self.digest()
        )
    }
}
