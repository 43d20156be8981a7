//! The reference for the port: the published modules of SRC32, compiled from their text in a
//! checkout, over a small stand-in bus, and the programs that question them.
//!
//! `build.rs` finds the checkout, and puts a window on the private fields (`windows/`) behind the
//! published text. Below the published modules stand the shims for what they import; then come the
//! parts of the oracle, one file each.

include!(concat!(env!("OUT_DIR"), "/published.rs"));

/// The one type of the published CPU step that the privilege state names.
pub mod cpu {
    /// Which of the two instruction encodings a trap interrupted.
    #[derive(Debug, Clone, Copy, PartialEq, Eq)]
    pub enum InstructionMode {
        Normal,
        Short,
    }
}

/// Stands in for published devices that the port leaves out.
pub mod shims {
    /// The published controller asks this device whether its tracing is on.
    pub mod pec {
        /// Never: tracing is no part of any answer.
        pub fn pec_trace_enabled() -> bool {
            false
        }
    }
}

pub mod access;
#[cfg(feature = "port")]
pub mod both;
pub mod bus;
pub mod cache;
pub mod digest;
pub mod event;
pub mod generate;
pub mod inspect;
pub mod irqc;
pub mod listing;
pub mod machine;
pub mod mmu;
#[cfg(feature = "port")]
pub mod port;
pub mod privilege;
pub mod random;
pub mod script;
pub mod shrink;
pub mod state;
pub mod store;
pub mod watch;
