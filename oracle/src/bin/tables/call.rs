//! What the writer is asked, and what it answers.

pub const PAGE_SIZE: u32 = 4096;

/// A list of mappings, a run of free frames, and the memory that holds them.
#[derive(Clone, Debug, PartialEq, Eq)]
pub struct Call {
    pub base: u32,
    pub memory: Vec<u8>,
    pub vpns: Vec<u32>,
    pub ppns: Vec<u32>,
    pub bits: Vec<u8>,
    pub first: u32,
    pub frames: u32,
}

#[derive(Clone, Copy, Debug, PartialEq, Eq)]
pub enum Answer {
    Written { ptbr: u32, used: u32 },
    Refused(u32),
}
