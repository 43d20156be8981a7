//! The port's writer of page tables, behind a safe function.

use crate::call::{Answer, Call};

#[repr(C)]
struct TablesAnswer {
    refusal: u32,
    ptbr: u32,
    used: u32,
}

#[link(name = "tables", kind = "static")]
extern "C" {
    fn tables_write(
        mem: *mut u8,
        mem_len: usize,
        base: u32,
        vpns: *const u32,
        vpns_len: usize,
        ppns: *const u32,
        ppns_len: usize,
        bits: *const u8,
        bits_len: usize,
        first: u32,
        frames: u32,
    ) -> TablesAnswer;
}

/// Writes the tables of a call into its memory. A refused call leaves that as it was.
pub fn write(call: &mut Call) -> Answer {
    // Each pointer and length is of one slice that lives over the call; the memory alone is written.
    let answer = unsafe {
        tables_write(
            call.memory.as_mut_ptr(),
            call.memory.len(),
            call.base,
            call.vpns.as_ptr(),
            call.vpns.len(),
            call.ppns.as_ptr(),
            call.ppns.len(),
            call.bits.as_ptr(),
            call.bits.len(),
            call.first,
            call.frames,
        )
    };
    match answer.refusal {
        0 => Answer::Written {
            ptbr: answer.ptbr,
            used: answer.used,
        },
        number => Answer::Refused(number),
    }
}
