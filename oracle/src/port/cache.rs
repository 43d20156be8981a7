//! The port's L1 tag cache.

use crate::cache::{self, line};
use crate::event::{Event, Replay};
use crate::state::Cache;

/// What a load or fetch leaves, and its stall.
#[repr(C)]
pub struct CacheAccess {
    pub cache: Cache,
    pub stall: u32,
}

extern "C" {
    fn cache_new(ram_start: u32, ram_size: u32) -> Cache;
    fn cache_set_penalty(c: Cache, penalty: u32) -> Cache;
    fn cache_reset(c: Cache) -> Cache;
    fn cache_fetch(c: Cache, pa: u32) -> CacheAccess;
    fn cache_load(c: Cache, pa: u32) -> CacheAccess;
    fn cache_store(c: Cache, pa: u32) -> Cache;
    fn cache_external_write(c: Cache, pa: u32, len: u32) -> Cache;
    fn cache_lines_visited(pa: u32, len: u32) -> u32;
    fn cache_read_reg(c: Cache, offset: u32) -> u32;
    fn cache_write_reg(c: Cache, offset: u32, value: u32) -> Cache;
    fn cache_read_byte(c: Cache, addr: u32) -> u8;
    fn cache_write_byte(c: Cache, addr: u32, value: u8) -> Cache;
}

/// A new cache with a penalty.
pub fn with_penalty(ram_start: u32, ram_size: u32, penalty: u32) -> Cache {
    // SAFETY: see the head of `port`.
    unsafe { cache_set_penalty(cache_new(ram_start, ram_size), penalty) }
}

/// How many lines of each bank an external write visits.
pub fn lines_visited(pa: u32, len: u32) -> u32 {
    // SAFETY: see the head of `port`.
    unsafe { cache_lines_visited(pa, len) }
}

/// The port's side.
pub struct Port(pub Cache);

impl Default for Port {
    fn default() -> Self {
        Self(with_penalty(cache::START, cache::SIZE, 0))
    }
}

impl Port {
    fn access(&mut self, access: CacheAccess) -> u32 {
        self.0 = access.cache;
        access.stall
    }

    /// The value of an event that has one.
    fn asked(&mut self, event: &Event) -> Option<u32> {
        let c = self.0;
        // SAFETY: see the head of `port`.
        unsafe {
            match event.kind {
                cache::KIND_LOAD => Some(self.access(cache_load(c, event.a))),
                cache::KIND_FETCH => Some(self.access(cache_fetch(c, event.a))),
                cache::KIND_READ => Some(cache_read_reg(c, event.a)),
                cache::KIND_READ_BYTE => Some(u32::from(cache_read_byte(c, event.a))),
                _ => None,
            }
        }
    }

    /// The cache after an event that has no value.
    fn changed(&self, event: &Event) -> Cache {
        let c = self.0;
        // SAFETY: see the head of `port`.
        unsafe {
            match event.kind {
                cache::KIND_STORE => cache_store(c, event.a),
                cache::KIND_EXTERNAL => cache_external_write(c, event.a, event.b),
                cache::KIND_WRITE => cache_write_reg(c, event.a, event.b),
                cache::KIND_WRITE_BYTE => cache_write_byte(c, event.a, event.size),
                cache::KIND_RESET => cache_reset(c),
                cache::KIND_NEW => cache_new(event.a, event.b),
                cache::KIND_PENALTY => cache_set_penalty(c, event.a),
                _ => c,
            }
        }
    }
}

impl Replay for Port {
    fn step(&mut self, event: &Event) -> String {
        let value = self.asked(event).unwrap_or_else(|| {
            self.0 = self.changed(event);
            0
        });
        line(value, &self.0)
    }
}
