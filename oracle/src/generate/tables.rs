//! Page tables, good and damaged, and the addresses that lead through them.
//!
//! An image of `pages` pages holds level-1 tables (roots) and level-2 tables. In a small image
//! one page is both, which the walk does not mind. Leaves lead to all pages, tables included.

use crate::random::Random;
use crate::script::PAGE;

/// Pages with leaves at the front of each level-2 table: more than the TLB holds.
pub const HOT_PAGES: u32 = 24;
/// Leaves at the end of each, for the topmost virtual pages.
const TOP_PAGES: u32 = 20;
/// Level-1 words in use at the front of each root.
const ROOT_WORDS: u32 = 10;

/// Which pages of the image are tables.
pub struct Layout {
    pub base: u32,
    pub pages: u32,
    roots: u32,
    tables: u32,
}

impl Layout {
    /// Roots first, then level-2 tables, then data; too few pages are used twice.
    pub fn new(base: u32, pages: u32) -> Self {
        Self {
            base,
            pages,
            roots: if pages < 4 { 1 } else { 2 },
            tables: pages.clamp(1, 6),
        }
    }

    pub fn frame(&self, page: u32) -> u32 {
        self.base.wrapping_add(page * PAGE)
    }

    /// First address behind the map.
    pub fn end(&self) -> u32 {
        self.frame(self.pages)
    }

    /// The page of a level-2 table: behind the roots if there is room, else the root itself.
    fn table(&self, random: &mut Random) -> u32 {
        if self.tables <= self.roots {
            return self.tables - 1;
        }
        self.roots + random.below(self.tables - self.roots)
    }

    /// The image with its tables.
    pub fn image(&self, random: &mut Random) -> Vec<u8> {
        let mut image: Vec<u8> = (0..self.pages * PAGE).map(|_| random.byte()).collect();
        for page in 0..self.tables.min(self.pages) {
            image[(page * PAGE) as usize..((page + 1) * PAGE) as usize].fill(0);
            for index in (0..HOT_PAGES).chain(1024 - TOP_PAGES..1024) {
                put(&mut image, page, index, self.leaf(random));
            }
        }
        for page in 0..self.roots.min(self.pages) {
            self.put_root(&mut image, page, random);
        }
        image
    }

    /// The first two words and the last are good, so that most addresses get to a leaf.
    fn put_root(&self, image: &mut [u8], page: u32, random: &mut Random) {
        for index in [0, 1, 1023] {
            let table = self.table(random);
            put(image, page, index, self.frame(table) | 1);
        }
        if self.roots < self.tables {
            for index in 2..ROOT_WORDS {
                put(image, page, index, self.pointer(random));
            }
        }
    }

    /// A level-1 word: good, or with one of the faults that a walk has to see.
    pub fn pointer(&self, random: &mut Random) -> u32 {
        let table = self.table(random);
        let good = self.frame(table) | 1;
        match random.below(10) {
            0 => good & !1,
            1 => good | random.pick(&[0x40, 0x80, 0xC0]),
            2 => good | random.pick(&[2, 4, 8, 14]),
            3 => random.pick(&[0xFFFF_F001, 0xFFFF_0001, self.end() | 1]),
            4 => self.base.wrapping_sub(PAGE) | 1,
            5 => random.word(),
            _ => good | random.pick(&[0, 0x10, 0x20, 0xF00, 0xF30]),
        }
    }

    /// A leaf: mostly open to users, else with one of the faults, or a frame that is none.
    pub fn leaf(&self, random: &mut Random) -> u32 {
        let permissions = random.pick(&[0x1E, 0x1E, 0x1E, 0x16, 0x12, 0x1A, 0x18, 0x0E]);
        let frame = self.frame(random.below(self.pages.max(1)));
        let good = frame | permissions | 1;
        match random.below(30) {
            0 => good & !1,
            1 => good | random.pick(&[0x40, 0x80, 0xC0]),
            2 => good & !0x0E,
            3 => frame | random.pick(&[0x15, 0x05, 0x1D]),
            4 => self.end() | permissions | 1,
            5 => self.base.wrapping_sub(PAGE) | permissions | 1,
            6 | 7 => {
                random.pick(&[0xFFFE_F000, 0xFFFF_0000, 0xFFFF_F000, 0x7FFF_F000]) | permissions | 1
            }
            8 => random.word(),
            9..=11 => good | random.pick(&[0x20, 0xF00, 0xF20]),
            _ => good,
        }
    }

    pub fn is_root(&self, ptbr: u32) -> bool {
        (0..self.roots).any(|page| self.frame(page) == ptbr & !(PAGE - 1))
    }

    /// A PTBR: a root, mostly, also with low bits that a walk clears.
    pub fn ptbr(&self, random: &mut Random) -> u32 {
        match random.below(20) {
            0 => self.end(),
            1 => random.pick(&[0xFFFF_F000, 0x8000_0000, self.base.wrapping_sub(PAGE)]),
            2 => self.frame(random.below(self.pages.max(1))),
            _ => self.frame(random.below(self.roots)) | random.pick(&[0, 0, 1, 0xFFF]),
        }
    }

    /// A root's page and that of a level-2 table, for a run that builds its own.
    pub fn root_and_table(&self) -> (u32, u32) {
        (self.frame(0), self.frame(self.roots.min(self.tables - 1)))
    }

    /// The address of a level-1 word, and a word for it that leads to a table.
    pub fn good_pointer(&self, random: &mut Random, index: u32) -> (u32, u32) {
        let root = self.frame(random.below(self.roots));
        (root + 4 * index, self.frame(self.table(random)) | 1)
    }

    /// A word of a table and what to put there. Level-1 words 0 and 1 are only led to another
    /// table, as a fault in them would cut off most pages for long.
    pub fn change(&self, random: &mut Random) -> (u32, u32) {
        if random.chance(25) {
            let index = random.below(ROOT_WORDS);
            let (addr, good) = self.good_pointer(random, index);
            let word = if index < 2 {
                good
            } else {
                self.pointer(random)
            };
            return (addr, word);
        }
        let index = match random.below(8) {
            0 => 1024 - 1 - random.below(TOP_PAGES),
            _ => random.below(HOT_PAGES),
        };
        (
            self.frame(self.table(random)) + 4 * index,
            self.leaf(random),
        )
    }
}

fn put(image: &mut [u8], page: u32, index: u32, word: u32) {
    let at = (page * PAGE + 4 * index) as usize;
    image[at..at + 4].copy_from_slice(&word.to_be_bytes());
}

/// Virtual addresses in pages that have some leaf or fault, at places where rules change. Some
/// pages come again soon, so that there are hits beside the walks.
#[derive(Default)]
pub struct Addresses {
    recent: [u32; 4],
}

impl Addresses {
    pub fn next(&mut self, random: &mut Random) -> u32 {
        let page = if random.chance(45) {
            random.pick(&self.recent)
        } else {
            fresh_page(random)
        };
        self.recent[random.below(4) as usize] = page;
        page << 12 | offset(random)
    }
}

fn fresh_page(random: &mut Random) -> u32 {
    match random.below(16) {
        0 | 4 => random.below(ROOT_WORDS) << 10 | random.below(HOT_PAGES),
        1 => 0xF_FFEC + random.below(TOP_PAGES),
        2 => random.below(ROOT_WORDS) << 10 | 0x3FF,
        3 => random.word() >> 12,
        _ => random.below(2) << 10 | random.below(HOT_PAGES),
    }
}

/// An offset in a page: its ends half of the time, so that crossings are frequent.
pub fn offset(random: &mut Random) -> u32 {
    match random.below(6) {
        0 => random.below(PAGE),
        1 => random.below(5),
        2 => random.below(PAGE / 4) * 4,
        _ => PAGE - 1 - random.below(5),
    }
}
