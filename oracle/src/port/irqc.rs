//! The port's interrupt controller.

use crate::event::{Event, Replay};
use crate::irqc::{self, View};
use crate::state::Controller;

/// What the port presents to the CPU.
#[repr(C)]
struct IrqOutput {
    valid: bool,
    number: u8,
}

extern "C" {
    fn irqc_new() -> Controller;
    fn irqc_reset(c: Controller) -> Controller;
    fn irqc_set_source(c: Controller, number: u32, level: bool) -> Controller;
    fn irqc_set_source_levels(c: Controller, mask: u16, levels: u16) -> Controller;
    fn irqc_clear_pending(c: Controller, mask: u16) -> Controller;
    fn irqc_set_enable_mask(c: Controller, mask: u16) -> Controller;
    fn irqc_read(c: Controller, addr: u32) -> u8;
    fn irqc_write(c: Controller, addr: u32, value: u8) -> Controller;
    fn irqc_irq_output(c: Controller) -> IrqOutput;
}

/// The port's side.
pub struct Port(pub Controller);

impl Default for Port {
    fn default() -> Self {
        // SAFETY: see the head of `port`.
        Self(unsafe { irqc_new() })
    }
}

impl Port {
    fn applied(&self, event: &Event) -> Controller {
        let c = self.0;
        // SAFETY: see the head of `port`.
        unsafe {
            match event.kind {
                irqc::KIND_SOURCE => irqc_set_source(c, event.a, event.size != 0),
                irqc::KIND_LEVELS => irqc_set_source_levels(c, event.aux, event.a as u16),
                irqc::KIND_CLEAR => irqc_clear_pending(c, event.aux),
                irqc::KIND_ENABLE => irqc_set_enable_mask(c, event.aux),
                irqc::KIND_WRITE => irqc_write(c, event.a, event.size),
                irqc::KIND_RESET => irqc_reset(c),
                _ => c,
            }
        }
    }

    fn read(&self, addr: u32) -> u8 {
        // SAFETY: see the head of `port`.
        unsafe { irqc_read(self.0, addr) }
    }
}

impl Replay for Port {
    fn step(&mut self, event: &Event) -> String {
        self.0 = self.applied(event);
        // SAFETY: see the head of `port`.
        let output = unsafe { irqc_irq_output(self.0) };
        View {
            pending: self.0.pending,
            enable: self.0.enable,
            valid: output.valid,
            number: output.number,
            bytes: [0, 1, 2, 3, 4, 5, 6, 7].map(|addr| self.read(addr)),
            at: self.read(event.a),
        }
        .line()
    }
}
