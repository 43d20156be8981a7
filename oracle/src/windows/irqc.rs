//! The published controller's private words. `build.rs` puts this module at the end of the published
//! text, where it can see them.

use super::IrqController;
use crate::state::Controller;

impl IrqController {
    pub fn state(&self) -> Controller {
        Controller {
            pending: self.pending,
            enable: self.enable,
            source_level: self.source_level,
        }
    }

    pub fn with_state(state: &Controller) -> Self {
        Self {
            pending: state.pending,
            enable: state.enable,
            source_level: state.source_level,
        }
    }
}
