//! The port's TLB, walk and page check, over lent memory.

use crate::digest::Digest;
use crate::event::{Event, Replay};
use crate::mmu;
use crate::script::Script;
use crate::state::{TlbEntry, Vm, SLOTS};

/// A check's answer: CAUSE is 0 where the access is allowed.
#[repr(C)]
struct MmuChecked {
    vm: Vm,
    cause: u32,
    addr: u32,
    reads: u32,
}

/// A walk's answer: a valid entry where it led to a leaf.
#[repr(C)]
struct MmuWalked {
    entry: TlbEntry,
    bus_error: bool,
    reads: u32,
}

extern "C" {
    fn mmu_new() -> Vm;
    fn mmu_flush(vm: Vm) -> Vm;
    fn mmu_invalidate(vm: Vm, va: u32) -> Vm;
    fn mmu_lookup(vm: Vm, vpn: u32) -> usize;
    /// A lent slice crosses as its pointer and its length.
    fn mmu_walk(mem: *const u8, len: usize, base: u32, ptbr: u32, va: u32) -> MmuWalked;
    fn mmu_check(
        vm: Vm,
        mem: *const u8,
        len: usize,
        base: u32,
        addr: u32,
        size: u32,
        access: u32,
    ) -> MmuChecked;
}

/// An answer before the state, as the published side's: letter, two numbers, walk reads.
type Answer = (char, u32, u32, u32);

const NOTHING: Answer = ('-', 0, 0, 0);

/// Added to a translation's flags if a TLB slot served it.
const IN_TLB: u32 = 0x100;

/// The port's side.
pub struct Port {
    vm: Vm,
    base: u32,
    memory: Vec<u8>,
}

impl Port {
    pub fn new(script: &Script) -> Self {
        // SAFETY: see the head of `port`.
        let mut vm = unsafe { mmu_new() };
        vm.enabled = true;
        vm.ptbr = script.last;
        Self {
            vm,
            base: script.base,
            memory: script.image.clone(),
        }
    }

    fn answer(&mut self, event: &Event) -> Answer {
        let vm = self.vm;
        match event.kind {
            mmu::KIND_READ | mmu::KIND_WRITE | mmu::KIND_FETCH => return self.check(event),
            // SAFETY: see the head of `port`.
            mmu::KIND_FLUSH => self.vm = unsafe { mmu_flush(vm) },
            // SAFETY: see the head of `port`.
            mmu::KIND_INVALIDATE => self.vm = unsafe { mmu_invalidate(vm, event.a) },
            mmu::KIND_PTBR => self.vm.ptbr = event.a,
            mmu::KIND_POKE => self.poke(event.a, event.b),
            mmu::KIND_TRANSLATE => return self.translate(event.a),
            _ => {}
        }
        NOTHING
    }

    fn check(&mut self, event: &Event) -> Answer {
        let (vm, base, size) = (self.vm, self.base, u32::from(event.size));
        let (mem, len) = (self.memory.as_ptr(), self.memory.len());
        // SAFETY: see the head of `port`; the memory is lent for the call.
        let checked =
            unsafe { mmu_check(vm, mem, len, base, event.a, size, u32::from(event.kind)) };
        self.vm = checked.vm;
        let letter = if checked.cause == 0 { 'A' } else { 'X' };
        (letter, checked.cause, checked.addr, checked.reads)
    }

    /// The inside bytes of a word: memory is this side's own.
    fn poke(&mut self, addr: u32, word: u32) {
        for (index, byte) in (0..).zip(word.to_be_bytes()) {
            let offset = addr.wrapping_add(index).checked_sub(self.base);
            if let Some(place) = offset.and_then(|at| self.memory.get_mut(at as usize)) {
                *place = byte;
            }
        }
    }

    /// Looks up or walks, and fills nothing.
    fn translate(&self, addr: u32) -> Answer {
        // SAFETY: see the head of `port`.
        let slot = unsafe { mmu_lookup(self.vm, addr >> 12) };
        if slot < SLOTS {
            return mapped(&self.vm.tlb[slot], addr, IN_TLB);
        }
        let (mem, len) = (self.memory.as_ptr(), self.memory.len());
        // SAFETY: see the head of `port`; the memory is lent for the call.
        let walked = unsafe { mmu_walk(mem, len, self.base, self.vm.ptbr, addr) };
        match (walked.entry.valid, walked.bus_error) {
            (true, _) => mapped(&walked.entry, addr, 0),
            (false, true) => ('E', 0, 0, 0),
            (false, false) => ('U', 0, 0, 0),
        }
    }

    fn slot_words(&self) -> Vec<u32> {
        let slots = self.vm.tlb.iter();
        slots
            .flat_map(|slot| [u32::from(slot.valid), slot.vpn, slot.ppn, slot.flags])
            .collect()
    }
}

fn mapped(entry: &TlbEntry, addr: u32, served: u32) -> Answer {
    ('M', entry.ppn << 12 | addr & 0xFFF, entry.flags | served, 0)
}

impl Replay for Port {
    fn step(&mut self, event: &Event) -> String {
        let (letter, value, addr, reads) = self.answer(event);
        let next = self.vm.next_victim;
        let tlb = Digest::new().words(&self.slot_words()).value();
        format!("{letter} {value:08X} {addr:08X} {reads} {next} {tlb:08X}")
    }
}
