//! The stand-in bus: what the published modules call of the real one, with document 01's rules.
//!
//! Memory is one run of bytes from a physical base on, big-endian. A byte outside it reads 0 and
//! sets the error latch; a write puts its inside bytes and sets the latch for the others. Words
//! go byte by byte, and addresses step modulo 2^32.

use std::cell::RefCell;
use std::rc::Rc;

use crate::cpu_cache::L1Cache;

/// A device window, as the published modules implement it.
pub trait Device {
    fn read(&mut self, addr: u32) -> u8;
    /// Read without side effects; part of the published trait, asked by no event.
    fn debug_read(&mut self, _addr: u32) -> Option<u8> {
        None
    }
    fn write(&mut self, addr: u32, value: u8);
    fn size(&self) -> u32;
}

/// A named part of the physical address space.
pub struct BusRegion {
    pub start: u32,
    pub size: u32,
    pub name: &'static str,
}

/// Memory, the error latch, and the count of words read.
#[derive(Default)]
pub struct Bus {
    base: u32,
    bytes: Vec<u8>,
    error: bool,
    words_read: u32,
    devices: Vec<(u32, Box<dyn Device>)>,
}

impl Bus {
    /// A bus whose memory holds `bytes` from `base` on.
    pub fn new(base: u32, bytes: &[u8]) -> Self {
        Self {
            base,
            bytes: bytes.to_vec(),
            ..Self::default()
        }
    }

    pub fn bytes(&self) -> &[u8] {
        &self.bytes
    }

    fn place(&self, addr: u32) -> Option<usize> {
        let offset = addr.checked_sub(self.base)? as usize;
        (offset < self.bytes.len()).then_some(offset)
    }

    pub fn read_u8(&mut self, addr: u32) -> u8 {
        match self.place(addr) {
            Some(offset) => self.bytes[offset],
            None => {
                self.error = true;
                0
            }
        }
    }

    pub fn write_u8(&mut self, addr: u32, value: u8) {
        match self.place(addr) {
            Some(offset) => self.bytes[offset] = value,
            None => self.error = true,
        }
    }

    pub fn read_u32_be(&mut self, addr: u32) -> u32 {
        self.words_read += 1;
        let bytes = [0, 1, 2, 3].map(|index| self.read_u8(addr.wrapping_add(index)));
        u32::from_be_bytes(bytes)
    }

    pub fn write_u32_be(&mut self, addr: u32, value: u32) {
        for (index, byte) in (0..).zip(value.to_be_bytes()) {
            self.write_u8(addr.wrapping_add(index), byte);
        }
    }

    /// Whether an access went outside the memory since the last call.
    pub fn take_bus_error(&mut self) -> bool {
        std::mem::take(&mut self.error)
    }

    /// How many words were read since the last call. Around a check these are its walk reads,
    /// because the published check reads memory in no other way.
    pub fn take_words_read(&mut self) -> u32 {
        std::mem::take(&mut self.words_read)
    }

    pub fn add_device(&mut self, addr: u32, _name: &'static str, device: Box<dyn Device>) {
        self.devices.push((addr, device));
    }

    /// The device whose window starts at `addr`: register bytes are asked of it directly.
    pub fn device(&mut self, addr: u32) -> Option<&mut dyn Device> {
        let found = self.devices.iter_mut().find(|(start, _)| *start == addr)?;
        Some(found.1.as_mut())
    }

    /// The memory under the name by which the published cache looks for its range.
    pub fn memory_map(&self) -> impl Iterator<Item = BusRegion> + '_ {
        std::iter::once(BusRegion {
            start: self.base,
            size: self.bytes.len() as u32,
            name: "Main RAM",
        })
    }

    /// The real bus tells the cache about other bus masters; here an event does.
    pub fn attach_l1_cache(&mut self, _cache: Rc<RefCell<L1Cache>>) {}
}

#[cfg(test)]
mod tests {
    use super::Bus;

    #[test]
    fn outside_bytes_read_zero_and_set_the_latch() {
        let mut bus = Bus::new(0x1000, &[1, 2, 3, 4]);
        assert_eq!(bus.read_u32_be(0x1000), 0x0102_0304);
        assert!(!bus.take_bus_error());
        assert_eq!(bus.read_u32_be(0x1002), 0x0304_0000);
        assert!(bus.take_bus_error());
        assert!(!bus.take_bus_error());
        assert_eq!(bus.read_u8(0xFFF), 0);
        assert!(bus.take_bus_error());
        assert_eq!(bus.take_words_read(), 2);
    }

    #[test]
    fn a_write_puts_its_inside_bytes() {
        let mut bus = Bus::new(0, &[0; 4]);
        bus.write_u32_be(0xFFFF_FFFE, 0x1122_3344);
        assert!(bus.take_bus_error());
        assert_eq!(bus.bytes(), [0x33, 0x44, 0, 0]);
        bus.write_u32_be(2, 0x5566_7788);
        assert!(bus.take_bus_error());
        assert_eq!(bus.bytes(), [0x33, 0x44, 0x55, 0x66]);
    }
}
