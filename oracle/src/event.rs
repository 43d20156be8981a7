//! The event record of 12 bytes, big-endian, that every stored input is made of, and what
//! carries events out.

use std::fmt;

/// What an event's fields mean is each component's own.
#[derive(Debug, Clone, Copy, Default, PartialEq, Eq)]
pub struct Event {
    pub kind: u8,
    pub size: u8,
    pub aux: u16,
    pub a: u32,
    pub b: u32,
}

/// Bytes of one event.
pub const LENGTH: usize = 12;

impl Event {
    pub fn encode(&self) -> [u8; LENGTH] {
        let mut bytes = [0; LENGTH];
        bytes[0] = self.kind;
        bytes[1] = self.size;
        bytes[2..4].copy_from_slice(&self.aux.to_be_bytes());
        bytes[4..8].copy_from_slice(&self.a.to_be_bytes());
        bytes[8..12].copy_from_slice(&self.b.to_be_bytes());
        bytes
    }

    pub fn decode(bytes: &[u8; LENGTH]) -> Self {
        Self {
            kind: bytes[0],
            size: bytes[1],
            aux: u16::from_be_bytes([bytes[2], bytes[3]]),
            a: u32::from_be_bytes([bytes[4], bytes[5], bytes[6], bytes[7]]),
            b: u32::from_be_bytes([bytes[8], bytes[9], bytes[10], bytes[11]]),
        }
    }
}

/// The form in which a difference shows the events that led to it.
impl fmt::Display for Event {
    fn fmt(&self, f: &mut fmt::Formatter<'_>) -> fmt::Result {
        write!(
            f,
            "kind {} size {:02X} aux {:04X} a {:08X} b {:08X}",
            self.kind, self.size, self.aux, self.a, self.b
        )
    }
}

/// The events in a row, as a program reads them.
pub fn encode_all(events: &[Event]) -> Vec<u8> {
    events.iter().flat_map(Event::encode).collect()
}

/// Whole events out of a row of bytes; fewer than 12 at its end are no event.
pub fn decode_all(bytes: &[u8]) -> Vec<Event> {
    let (rows, _) = bytes.as_chunks::<LENGTH>();
    rows.iter().map(Event::decode).collect()
}

/// One side of a comparison: it carries an event out and says, in one line without its newline,
/// all that is to be compared afterwards.
pub trait Replay {
    fn step(&mut self, event: &Event) -> String;
}

/// The answer lines to a row of events.
pub fn replay(side: &mut dyn Replay, events: &[Event]) -> String {
    events.iter().map(|event| side.step(event) + "\n").collect()
}

#[cfg(test)]
mod tests {
    use super::Event;

    #[test]
    fn decode_undoes_encode() {
        let event = Event {
            kind: 1,
            size: 2,
            aux: 0x0304,
            a: 0x0506_0708,
            b: 0x090A_0B0C,
        };
        let bytes = event.encode();
        assert_eq!(bytes, [1, 2, 3, 4, 5, 6, 7, 8, 9, 10, 11, 12]);
        assert_eq!(Event::decode(&bytes), event);
    }
}
