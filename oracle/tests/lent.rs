//! A controller that Rust owns and lends to the port, beside the published one: a million random
//! operations, compared after each. Needs the static libraries that `tools/staticlib irqc bridge tables race`
//! makes, since cargo builds the binaries with it:
//!
//!     cargo test --release --features port --test lent

#![cfg(feature = "port")]

use oracle::event::{Event, Replay};
use oracle::generate;
use oracle::irqc::{self, Published, View};
use oracle::random::Random;

const SEED: u64 = 1;
const COUNT: u64 = 1_000_000;

/// The controller's three words, as the port lays them out. This side owns them.
#[repr(C)]
#[derive(Clone, Copy, Debug, Default, PartialEq, Eq)]
struct IrqController {
    pending: u16,
    enable: u16,
    source_level: u16,
}

/// What the port presents to the CPU.
#[repr(C)]
struct IrqOutput {
    valid: bool,
    number: u8,
}

#[link(name = "irqc", kind = "static")]
extern "C" {
    fn irqc_lent_reset(c: &mut IrqController);
    fn irqc_lent_pending(c: &IrqController) -> u16;
    fn irqc_lent_enable_mask(c: &IrqController) -> u16;
    fn irqc_lent_set_enable_mask(c: &mut IrqController, mask: u16);
    fn irqc_lent_set_source(c: &mut IrqController, number: u32, level: bool);
    fn irqc_lent_set_source_levels(c: &mut IrqController, mask: u16, levels: u16);
    fn irqc_lent_clear_pending(c: &mut IrqController, mask: u16);
    fn irqc_lent_irq_output(c: &IrqController) -> IrqOutput;
    fn irqc_lent_read(c: &IrqController, addr: u32) -> u8;
    fn irqc_lent_write(c: &mut IrqController, addr: u32, value: u8);
}

/// The port's side: the words are lent for each operation and stay here.
#[derive(Default)]
struct Owner(IrqController);

impl Owner {
    fn apply(&mut self, event: &Event) {
        let c = &mut self.0;
        // SAFETY: each function takes a reference to the three words, laid out as its own, and is
        // proved to return for every input and to touch nothing else. So in `view`.
        unsafe {
            match event.kind {
                irqc::KIND_SOURCE => irqc_lent_set_source(c, event.a, event.size != 0),
                irqc::KIND_LEVELS => irqc_lent_set_source_levels(c, event.aux, event.a as u16),
                irqc::KIND_CLEAR => irqc_lent_clear_pending(c, event.aux),
                irqc::KIND_ENABLE => irqc_lent_set_enable_mask(c, event.aux),
                irqc::KIND_WRITE => irqc_lent_write(c, event.a, event.size),
                irqc::KIND_RESET => irqc_lent_reset(c),
                _ => {}
            }
        }
    }

    fn view(&self, addr: u32) -> View {
        let c = &self.0;
        // SAFETY: as in `apply`.
        unsafe {
            let output = irqc_lent_irq_output(c);
            View {
                pending: irqc_lent_pending(c),
                enable: irqc_lent_enable_mask(c),
                valid: output.valid,
                number: output.number,
                bytes: [0, 1, 2, 3, 4, 5, 6, 7].map(|addr| irqc_lent_read(c, addr)),
                at: irqc_lent_read(c, addr),
            }
        }
    }
}

impl Replay for Owner {
    fn step(&mut self, event: &Event) -> String {
        self.apply(event);
        let before = self.0;
        let line = self.view(event.a).line();
        assert_eq!(self.0, before, "reading changed the controller: {event}");
        line
    }
}

#[test]
fn a_lent_controller_beside_the_published_one() {
    let mut random = Random::new(SEED);
    let (mut published, mut owner) = (Published::default(), Owner::default());
    for done in 0..COUNT {
        let event = generate::irqc::event(&mut random);
        let (wanted, got) = (published.step(&event), owner.step(&event));
        assert_eq!(wanted, got, "operation {done}: {event}");
    }
}
