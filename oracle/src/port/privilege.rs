//! The port's privilege state where no event asks it: `allows`, the debugger's view, exceptions. The
//! answers come in the published types.

use crate::cpu_privilege::{Access, DebugTranslation, Exception, TlbEntryView, TlbFlags};
use crate::devices::cpu::{BUS_ERROR_VECTOR, ILLEGAL_INSTRUCTION_VECTOR, SYSCALL_VECTOR};
use crate::state::Privilege;

/// A debugger's translation, and a refusal's number or 0.
#[repr(C)]
struct Translated {
    refusal: u32,
    bus_error: bool,
    mapped: bool,
    in_tlb: bool,
    flags: Flags,
    physical: u32,
}

/// One slot's view.
#[repr(C)]
struct Slot {
    index: usize,
    valid: bool,
    virtual_page: u32,
    physical_page: u32,
    flags: Flags,
}

/// Four bools in a row, as the port has them in both structs.
#[repr(C)]
struct Flags {
    read: bool,
    write: bool,
    execute: bool,
    user: bool,
}

impl Flags {
    fn published(&self) -> TlbFlags {
        TlbFlags {
            read: self.read,
            write: self.write,
            execute: self.execute,
            user: self.user,
        }
    }
}

extern "C" {
    fn privilege_allows(p: Privilege, addr: u32, len: u32, access: u32) -> bool;
    fn privilege_debug_translate(
        p: Privilege,
        mem: *const u8,
        length: usize,
        base: u32,
        va: u32,
    ) -> Translated;
    fn privilege_tlb_entry(p: Privilege, index: usize) -> Slot;
    fn exception_cause(number: u32, imm: u16, access: u32, protection: bool, addr: u32) -> u32;
    fn exception_vector(number: u32, imm: u16, access: u32, protection: bool, addr: u32) -> u32;
}

pub fn allows(state: &Privilege, addr: u32, len: u32, access: Access) -> bool {
    // SAFETY: see the head of `port`.
    unsafe { privilege_allows(*state, addr, len, access_number(access)) }
}

/// A translation over a memory, or the number of its refusal.
pub fn debug_translate(
    state: &Privilege,
    memory: &[u8],
    base: u32,
    va: u32,
) -> Result<DebugTranslation, u32> {
    // SAFETY: see the head of `port`; the memory is lent for the call.
    let answer =
        unsafe { privilege_debug_translate(*state, memory.as_ptr(), memory.len(), base, va) };
    match answer {
        Translated { refusal: 1.., .. } => Err(answer.refusal),
        Translated { mapped: true, .. } => Ok(DebugTranslation::Mapped {
            physical: answer.physical,
            flags: answer.flags.published(),
            in_tlb: answer.in_tlb,
        }),
        Translated {
            bus_error: true, ..
        } => Ok(DebugTranslation::BusError),
        _ => Ok(DebugTranslation::Unmapped),
    }
}

pub fn tlb_entry(state: &Privilege, index: usize) -> TlbEntryView {
    // SAFETY: see the head of `port`.
    let slot = unsafe { privilege_tlb_entry(*state, index) };
    TlbEntryView {
        index: slot.index,
        valid: slot.valid,
        virtual_page: slot.virtual_page,
        physical_page: slot.physical_page,
        flags: slot.flags.published(),
    }
}

/// CAUSE, and the vector's address, of which the port answers the kind.
pub fn cause_and_vector(exception: Exception) -> (u32, u32) {
    let (number, imm, access, protection, addr) = match exception {
        Exception::IllegalInstruction => (0, 0, 0, false, 0),
        Exception::BusError => (1, 0, 0, false, 0),
        Exception::Syscall(imm) => (2, imm, 0, false, 0),
        Exception::PrivilegedInstruction => (3, 0, 0, false, 0),
        Exception::ProtectionFault(access) => (4, 0, access_number(access), false, 0),
        Exception::PageFault {
            access,
            protection,
            addr,
        } => (5, 0, access_number(access), protection, addr),
    };
    let vectors = [ILLEGAL_INSTRUCTION_VECTOR, BUS_ERROR_VECTOR, SYSCALL_VECTOR];
    // SAFETY: see the head of `port`.
    unsafe {
        (
            exception_cause(number, imm, access, protection, addr),
            vectors[exception_vector(number, imm, access, protection, addr) as usize],
        )
    }
}

fn access_number(access: Access) -> u32 {
    match access {
        Access::Read => 0,
        Access::Write => 1,
        Access::Fetch => 2,
    }
}
