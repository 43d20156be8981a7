//! The script of document 01: six header words, events of 12 bytes, and the image that memory
//! starts with. Reads one, or says with which number it is refused; writes one for generators.
//!
//! The stored inputs of the MMU and privilege replays have the same form.

use crate::event::{self, Event};

/// Refusal numbers of document 01 that concern a whole script.
pub const REFUSED_MAP: u32 = 2;
pub const REFUSED_HEADER: u32 = 4;
pub const REFUSED_SECTION: u32 = 5;

pub const HEADER: usize = 24;
pub const LONGEST: usize = 61_440;
pub const MOST_EVENTS: u32 = 2_048;
pub const LARGEST_IMAGE: u32 = 32_768;
pub const PAGE: u32 = 4_096;
/// First address that no map may hold.
pub const RESERVED: u32 = 0xFFFF_0000;

/// A good script.
#[derive(Debug, Clone, Default, PartialEq, Eq)]
pub struct Script {
    pub events: Vec<Event>,
    pub image: Vec<u8>,
    pub base: u32,
    /// The miss penalty; the MMU replay's first PTBR.
    pub last: u32,
}

/// A part of the script, by its header words. Sums are the true ones: nothing wraps.
struct Section {
    start: u64,
    end: u64,
}

impl Section {
    fn new(start: u32, length: u64) -> Self {
        let start = u64::from(start);
        Self {
            start,
            end: start + length,
        }
    }

    fn is_empty(&self) -> bool {
        self.start == self.end
    }

    /// An empty section is nowhere, so its offset is not looked at.
    fn fits(&self, script: &[u8]) -> bool {
        self.is_empty() || (self.start >= HEADER as u64 && self.end <= script.len() as u64)
    }

    fn overlaps(&self, other: &Section) -> bool {
        !self.is_empty() && !other.is_empty() && self.start < other.end && other.start < self.end
    }

    fn bytes<'a>(&self, script: &'a [u8]) -> &'a [u8] {
        if self.is_empty() {
            return &[];
        }
        &script[self.start as usize..self.end as usize]
    }
}

impl Script {
    /// Reads a script, or gives its refusal: 4, then 2, then 5.
    pub fn read(script: &[u8]) -> Result<Self, u32> {
        if script.len() < HEADER || script.len() > LONGEST {
            return Err(REFUSED_HEADER);
        }
        let [count, events_at, length, image_at, base, last] =
            [0, 4, 8, 12, 16, 20].map(|at| word(script, at));
        if count > MOST_EVENTS || length > LARGEST_IMAGE || !length.is_multiple_of(PAGE) {
            return Err(REFUSED_HEADER);
        }
        if !map_is_good(base, length) {
            return Err(REFUSED_MAP);
        }
        let events = Section::new(events_at, u64::from(count) * event::LENGTH as u64);
        let image = Section::new(image_at, u64::from(length));
        if !events.fits(script) || !image.fits(script) || events.overlaps(&image) {
            return Err(REFUSED_SECTION);
        }
        Ok(Self {
            events: event::decode_all(events.bytes(script)),
            image: image.bytes(script).to_vec(),
            base,
            last,
        })
    }

    /// The script with its events behind the header and the image behind those.
    pub fn write(&self) -> Vec<u8> {
        let events = event::encode_all(&self.events);
        let header = [
            self.events.len() as u32,
            HEADER as u32,
            self.image.len() as u32,
            (HEADER + events.len()) as u32,
            self.base,
            self.last,
        ];
        let mut script: Vec<u8> = header.iter().flat_map(|word| word.to_be_bytes()).collect();
        script.extend(events);
        script.extend(&self.image);
        script
    }
}

/// Refusal 2 concerns the base here: a bad length is refused with 4 before.
fn map_is_good(base: u32, length: u32) -> bool {
    base.is_multiple_of(PAGE) && u64::from(base) + u64::from(length) <= u64::from(RESERVED)
}

fn word(script: &[u8], at: usize) -> u32 {
    u32::from_be_bytes([script[at], script[at + 1], script[at + 2], script[at + 3]])
}

#[cfg(test)]
mod tests {
    use super::{Script, HEADER, LONGEST};
    use crate::event::Event;

    fn header(words: [u32; 6], length: usize) -> Vec<u8> {
        let mut script: Vec<u8> = words.iter().flat_map(|word| word.to_be_bytes()).collect();
        script.resize(length, 0);
        script
    }

    fn refusal(words: [u32; 6], length: usize) -> u32 {
        Script::read(&header(words, length)).err().unwrap_or(0)
    }

    #[test]
    fn read_undoes_write() {
        let script = Script {
            events: vec![
                Event {
                    kind: 14,
                    ..Event::default()
                };
                3
            ],
            image: vec![7; 4096],
            base: 0x1000,
            last: 8,
        };
        assert_eq!(Script::read(&script.write()), Ok(script));
    }

    #[test]
    fn header_refusals_come_first() {
        assert_eq!(Script::read(&[0; HEADER - 1]), Err(4));
        assert_eq!(refusal([0; 6], LONGEST), 0);
        assert_eq!(refusal([0; 6], LONGEST + 1), 4);
        assert_eq!(refusal([2_049, 0, 0, 0, 1, 0], 24), 4);
        assert_eq!(refusal([0x8000_0000, 0, 0, 0, 0, 0], 24), 4);
        assert_eq!(refusal([0, 0, 4_095, 24, 1, 0], 24), 4);
        assert_eq!(refusal([0, 0, 36_864, 24, 0, 0], 40_000), 4);
    }

    #[test]
    fn the_map_comes_before_the_sections() {
        assert_eq!(refusal([1, 0, 0, 0, 1, 0], 24), 2);
        assert_eq!(refusal([0, 0, 4_096, 24, 0xFFFE_F000, 0], 4_120), 0);
        assert_eq!(refusal([0, 0, 4_096, 24, 0xFFFF_0000, 0], 4_120), 2);
        assert_eq!(refusal([0, 0, 4_096, 24, 0xFFFF_F000, 0], 4_120), 2);
        assert_eq!(refusal([0, 0, 0, 0, 0xFFFF_0000, 0], 24), 0);
        assert_eq!(refusal([0, 0, 0, 0, 0xFFFF_1000, 0], 24), 2);
    }

    #[test]
    fn sections_inside_and_apart() {
        assert_eq!(refusal([1, 23, 0, 0, 0, 0], 40), 5);
        assert_eq!(refusal([1, 24, 0, 0xFFFF_FFFF, 0, 0], 36), 0);
        assert_eq!(refusal([1, 25, 0, 0, 0, 0], 36), 5);
        assert_eq!(refusal([0, 0xFFFF_FFFF, 4_096, 24, 0, 0], 4_120), 0);
        assert_eq!(refusal([0, 0, 4_096, 0xFFFF_F018, 0, 0], 4_120), 5);
        assert_eq!(refusal([1, 24, 4_096, 36, 0, 0], 4_132), 0);
        assert_eq!(refusal([1, 4_120, 4_096, 24, 0, 0], 4_132), 0);
        assert_eq!(refusal([1, 24, 4_096, 35, 0, 0], 4_132), 5);
    }
}
