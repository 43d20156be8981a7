//! The published privilege state's private bank, regions and TLB. `build.rs` puts this module at the
//! end of the published text, where it can see them.

use super::{Region, SystemState, TlbEntry, Vm};
use crate::cpu::InstructionMode;
use crate::state;

impl TlbEntry {
    fn state(&self) -> state::TlbEntry {
        state::TlbEntry {
            valid: self.valid,
            vpn: self.vpn,
            ppn: self.ppn,
            flags: self.flags,
        }
    }

    fn with_state(state: &state::TlbEntry) -> Self {
        Self {
            valid: state.valid,
            vpn: state.vpn,
            ppn: state.ppn,
            flags: state.flags,
        }
    }
}

impl Vm {
    pub fn state(&self) -> state::Vm {
        state::Vm {
            enabled: self.enabled,
            ptbr: self.ptbr,
            vfault: self.vfault,
            tlb: self.tlb.map(|entry| entry.state()),
            next_victim: self.next_victim,
        }
    }

    fn with_state(state: &state::Vm) -> Self {
        Self {
            enabled: state.enabled,
            ptbr: state.ptbr,
            vfault: state.vfault,
            tlb: state.tlb.map(|entry| TlbEntry::with_state(&entry)),
            next_victim: state.next_victim,
        }
    }
}

impl SystemState {
    /// The state with the live registers beside it.
    pub fn state(&self, reg: &[u32; 32]) -> state::Privilege {
        state::Privilege {
            ie: self.ie,
            pie: self.pie,
            user: self.user,
            pu: self.pu,
            short: self.psm == InstructionMode::Short,
            epc: self.epc,
            cause: self.cause,
            other_bank: self.other_bank,
            starts: self.regions.map(|region| region.start),
            ends: self.regions.map(|region| region.end),
            flags: self.regions.map(|region| region.flags),
            vm: self.vm.state(),
            reg: *reg,
        }
    }

    pub fn with_state(state: &state::Privilege) -> Self {
        let modes = [InstructionMode::Normal, InstructionMode::Short];
        Self {
            ie: state.ie,
            pie: state.pie,
            user: state.user,
            pu: state.pu,
            psm: modes[usize::from(state.short)],
            epc: state.epc,
            cause: state.cause,
            other_bank: state.other_bank,
            regions: std::array::from_fn(|n| Region {
                start: state.starts[n],
                end: state.ends[n],
                flags: state.flags[n],
            }),
            vm: Vm::with_state(&state.vm),
        }
    }
}
