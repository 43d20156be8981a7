//! The interrupt controller: the published one's answers to events.
//!
//! Kinds: 0 source `a` to level `size != 0`; 1 sources of mask `aux` to the low half of `a`;
//! 2 clear pending `aux`; 3 enable `aux`; 4 write `size` to register byte `a`; 5 reset; others
//! change nothing.

use crate::bus::Device;
use crate::devices::irqc::irqc::IrqController;
use crate::event::{Event, Replay};
use crate::state::Controller;

pub const KIND_SOURCE: u8 = 0;
pub const KIND_LEVELS: u8 = 1;
pub const KIND_CLEAR: u8 = 2;
pub const KIND_ENABLE: u8 = 3;
pub const KIND_WRITE: u8 = 4;
pub const KIND_RESET: u8 = 5;

/// What can be seen of a controller after an event, the published one's or the port's.
pub struct View {
    pub pending: u16,
    pub enable: u16,
    pub valid: bool,
    pub number: u8,
    /// Register bytes 0 to 7, and the one at the event's address.
    pub bytes: [u8; 8],
    pub at: u8,
}

impl View {
    pub fn line(&self) -> String {
        let bytes: String = self
            .bytes
            .iter()
            .map(|byte| format!("{byte:02X}"))
            .collect();
        format!(
            "{:04X} {:04X} {:X} {:02X} {bytes} {:02X}",
            self.pending,
            self.enable,
            u8::from(self.valid),
            self.number,
            self.at
        )
    }
}

/// The published controller.
#[derive(Default)]
pub struct Published(IrqController);

impl Published {
    pub fn with_state(state: &Controller) -> Self {
        Self(IrqController::with_state(state))
    }

    pub fn state(&self) -> Controller {
        self.0.state()
    }

    fn apply(&mut self, event: &Event) {
        match event.kind {
            KIND_SOURCE => {
                // The published number is a byte; document 01 says that 16 and above do nothing.
                if let Ok(number) = u8::try_from(event.a) {
                    self.0.set_source(number, event.size != 0);
                }
            }
            KIND_LEVELS => self.0.set_source_levels(event.aux, event.a as u16),
            KIND_CLEAR => self.0.clear_pending(event.aux),
            KIND_ENABLE => self.0.set_enable_mask(event.aux),
            KIND_WRITE => self.0.write(event.a, event.size),
            KIND_RESET => self.0.reset(),
            _ => {}
        }
    }
}

impl Replay for Published {
    fn step(&mut self, event: &Event) -> String {
        self.apply(event);
        let output = self.0.irq_output();
        View {
            pending: self.0.pending(),
            enable: self.0.enable_mask(),
            valid: output.valid,
            number: output.number,
            bytes: [0, 1, 2, 3, 4, 5, 6, 7].map(|addr| self.0.read(addr)),
            at: self.0.read(event.a),
        }
        .line()
    }
}
