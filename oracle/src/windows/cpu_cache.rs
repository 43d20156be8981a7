//! The published cache's private tags, counts and ranges. `build.rs` puts this module at the end of
//! the published text, where it can see them.

use super::{Bank, L1Cache};
use crate::state;

impl Bank {
    fn state(&self) -> state::Bank {
        let tags = self.tags.as_slice().try_into();
        state::Bank {
            tags: tags.expect("a published bank has 256 lines"),
            enabled: self.enabled,
            hits: self.hits,
            misses: self.misses,
        }
    }

    fn set(&mut self, state: &state::Bank) {
        self.tags.copy_from_slice(&state.tags);
        self.enabled = state.enabled;
        self.hits = state.hits;
        self.misses = state.misses;
    }
}

impl L1Cache {
    pub fn state(&self) -> state::Cache {
        state::Cache {
            i: self.i.state(),
            d: self.d.state(),
            ram_start: self.ram_start,
            ram_end: self.ram_end,
            miss_penalty: self.miss_penalty,
        }
    }

    pub fn with_state(state: &state::Cache) -> Self {
        let mut cache = Self::new(0, 0);
        cache.i.set(&state.i);
        cache.d.set(&state.d);
        cache.ram_start = state.ram_start;
        cache.ram_end = state.ram_end;
        cache.miss_penalty = state.miss_penalty;
        cache
    }
}
