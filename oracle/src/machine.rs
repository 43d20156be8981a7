//! Document 01's machine over the published modules: the combined access and one step for each
//! event of a script.

use crate::access::{self, size_is_legal, REFUSED_EVENT, REFUSED_REGISTER, REFUSED_SIZE};
use crate::bus::Bus;
use crate::cpu::InstructionMode;
use crate::cpu_cache::L1Cache;
use crate::cpu_privilege::{Access, SystemState};
use crate::devices::irqc::irqc::IrqController;
use crate::event::Event;
use crate::script::Script;
use crate::state;

pub const KIND_LOAD: u8 = 0;
pub const KIND_STORE: u8 = 1;
pub const KIND_FETCH: u8 = 2;
pub const KIND_TRAP: u8 = 3;
pub const KIND_IRET: u8 = 4;
pub const KIND_READ: u8 = 5;
pub const KIND_WRITE: u8 = 6;
pub const KIND_SOURCE: u8 = 7;
pub const KIND_CLEAR: u8 = 8;
pub const KIND_ENABLE: u8 = 9;
pub const KIND_EXTERNAL: u8 = 10;
pub const KIND_CACHE_READ: u8 = 11;
pub const KIND_CACHE_WRITE: u8 = 12;
pub const KIND_RESET: u8 = 13;
pub const KIND_OUTPUT: u8 = 14;
pub const KIND_REGISTER: u8 = 15;

/// What an event answers.
#[derive(Debug, Clone, Copy, PartialEq, Eq)]
pub enum Outcome {
    Value(u32),
    /// The CAUSE of the exception.
    Exception(u32),
    /// A byte of the data is outside the map.
    BusError,
    /// The number of the refusal.
    Refusal(u32),
}

/// An event's answer with its cost.
#[derive(Debug, Clone, Copy, PartialEq, Eq)]
pub struct Answer {
    pub outcome: Outcome,
    pub stall: u32,
    pub reads: u32,
}

impl Answer {
    fn free(outcome: Outcome) -> Self {
        Self {
            outcome,
            stall: 0,
            reads: 0,
        }
    }

    fn value(value: u32) -> Self {
        Self::free(Outcome::Value(value))
    }

    fn refused(number: u32) -> Self {
        Self::free(Outcome::Refusal(number))
    }
}

/// The published parts and the registers.
pub struct Machine {
    pub sys: SystemState,
    pub reg: [u32; 32],
    pub irqc: IrqController,
    pub cache: L1Cache,
    pub bus: Bus,
}

impl Machine {
    pub fn new(script: &Script) -> Self {
        let mut cache = L1Cache::new(script.base, script.image.len() as u32);
        cache.miss_penalty = script.last;
        Self {
            sys: SystemState::default(),
            reg: [0; 32],
            irqc: IrqController::new(),
            cache,
            bus: Bus::new(script.base, &script.image),
        }
    }

    /// A machine in any state, over a memory.
    pub fn with_state(state: &state::Machine, base: u32, memory: &[u8]) -> Self {
        Self {
            sys: SystemState::with_state(&state.sys),
            reg: state.sys.reg,
            irqc: IrqController::with_state(&state.irqc),
            cache: L1Cache::with_state(&state.cache),
            bus: Bus::new(base, memory),
        }
    }

    /// All of it but the memory.
    pub fn state(&self) -> state::Machine {
        state::Machine {
            sys: self.sys.state(&self.reg),
            cache: self.cache.state(),
            irqc: self.irqc.state(),
        }
    }

    pub fn step(&mut self, event: &Event) -> Answer {
        match event.kind {
            KIND_LOAD => self.access(event, Access::Read),
            KIND_STORE => self.access(event, Access::Write),
            KIND_FETCH => self.access(event, Access::Fetch),
            KIND_IRET => Answer::value(self.sys.leave_trap(&mut self.reg).0),
            KIND_READ => match self.sys.read_sr(event.aux, &self.reg) {
                Some(value) => Answer::value(value),
                None => Answer::refused(REFUSED_REGISTER),
            },
            KIND_WRITE => match self.sys.write_sr(event.aux, event.a, &mut self.reg) {
                true => Answer::value(0),
                false => Answer::refused(REFUSED_REGISTER),
            },
            KIND_CACHE_READ => Answer::value(self.cache.read_reg(event.a)),
            KIND_OUTPUT => Answer::value(self.output()),
            KIND_REGISTER => self.set_register(event),
            _ => self.change(event),
        }
    }

    /// Events that answer 0 whatever they do.
    fn change(&mut self, event: &Event) -> Answer {
        match event.kind {
            KIND_TRAP => self.trap(event),
            KIND_SOURCE => self.set_source(event.aux, event.size != 0),
            KIND_CLEAR => self.irqc.clear_pending(event.aux),
            KIND_ENABLE => self.irqc.set_enable_mask(event.aux),
            KIND_EXTERNAL => self.cache.external_write(event.a, event.b),
            KIND_CACHE_WRITE => self.cache.write_reg(event.a, event.b),
            KIND_RESET => self.reset(),
            _ => return Answer::refused(REFUSED_EVENT),
        }
        Answer::value(0)
    }

    /// Size, check, the cache once at the first byte's physical address, memory.
    fn access(&mut self, event: &Event, access: Access) -> Answer {
        let Event { size, a, b, .. } = *event;
        if !size_is_legal(access, size) {
            return Answer::refused(REFUSED_SIZE);
        }
        let (verdict, reads) = access::check(&mut self.sys, &mut self.bus, a, size, access);
        if let Err(exception) = verdict {
            return Answer {
                outcome: Outcome::Exception(exception.cause()),
                stall: 0,
                reads,
            };
        }
        let stall = self.present(self.sys.physical(a), access);
        let data = match access {
            Access::Write => access::write(&self.sys, &mut self.bus, a, size, b).then_some(0),
            Access::Read | Access::Fetch => access::read(&self.sys, &mut self.bus, a, size),
        };
        Answer {
            outcome: data.map_or(Outcome::BusError, Outcome::Value),
            stall,
            reads,
        }
    }

    fn present(&mut self, physical: u32, access: Access) -> u32 {
        match access {
            Access::Read => self.cache.load(physical),
            Access::Fetch => self.cache.fetch(physical),
            Access::Write => {
                self.cache.store(physical);
                0
            }
        }
    }

    fn trap(&mut self, event: &Event) {
        let mode = match event.aux % 2 {
            0 => InstructionMode::Normal,
            _ => InstructionMode::Short,
        };
        self.sys.enter_trap(&mut self.reg, event.a, event.b, mode);
    }

    /// The published number is a byte; 16 and above do nothing, here also those that a byte
    /// cannot hold.
    fn set_source(&mut self, number: u16, level: bool) {
        if let Ok(number) = u8::try_from(number) {
            self.irqc.set_source(number, level);
        }
    }

    fn output(&self) -> u32 {
        let output = self.irqc.irq_output();
        if output.valid {
            256 + u32::from(output.number)
        } else {
            0
        }
    }

    fn set_register(&mut self, event: &Event) -> Answer {
        match self.reg.get_mut(usize::from(event.size)) {
            Some(register) => {
                *register = event.a;
                Answer::value(0)
            }
            None => Answer::refused(REFUSED_EVENT),
        }
    }

    /// Memory and R0 to R31 are kept.
    fn reset(&mut self) {
        self.sys = SystemState::default();
        self.irqc.reset();
        self.cache.reset();
    }
}
