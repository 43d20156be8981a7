//! A run under construction: its events so far and the steps that bring a state about. The kinds
//! used here (0 to 6) mean the same in the privilege replay and in a script.

use crate::cpu_privilege::{SR_PTBR, SR_STATUS, SR_TLBINV, SR_VCTL};
use crate::event::Event;
use crate::generate::system::edge;
use crate::generate::tables::{offset, Addresses, Layout};
use crate::privilege::{KIND_FETCH, KIND_IRET, KIND_LOAD, KIND_STORE, KIND_TRAP, KIND_WRITE};
use crate::random::Random;
use crate::script::PAGE;

/// The pieces that every generator of runs needs.
pub struct Run {
    pub random: Random,
    pub layout: Layout,
    pub addresses: Addresses,
    pub events: Vec<Event>,
}

impl Run {
    pub fn new(random: Random, layout: Layout) -> Self {
        Self {
            random,
            layout,
            addresses: Addresses::default(),
            events: Vec::new(),
        }
    }

    /// An event whose fields hold anything, for those that its kind ignores.
    pub fn noise(&mut self, kind: u8) -> Event {
        Event {
            kind,
            size: self.random.byte(),
            aux: self.random.half(),
            a: self.random.word(),
            b: self.random.word(),
        }
    }

    pub fn push(&mut self, kind: u8) {
        let event = self.noise(kind);
        self.events.push(event);
    }

    /// Writes a system register.
    pub fn write(&mut self, number: u16, value: u32) {
        let event = Event {
            aux: number,
            a: value,
            ..self.noise(KIND_WRITE)
        };
        self.events.push(event);
    }

    fn access(&mut self, kind: u8, addr: u32, value: u32) {
        let event = Event {
            size: 4,
            a: addr,
            b: value,
            ..self.noise(kind)
        };
        self.events.push(event);
    }

    /// A way of running: regions or tables, user or supervisor. Starts as supervisor; says
    /// whether addresses are translated at its end.
    pub fn set_up(&mut self) -> bool {
        self.push(KIND_TRAP);
        let translate = self.random.chance(70);
        self.write(SR_VCTL, u32::from(translate));
        if translate {
            self.repair();
            let ptbr = self.layout.ptbr(&mut self.random);
            self.write(SR_PTBR, ptbr);
        } else {
            self.grant();
        }
        let user = self.random.chance(80);
        if user {
            self.enter_user();
        }
        translate && user
    }

    /// IRET with PU set enters user mode.
    pub fn enter_user(&mut self) {
        let status = 8 | self.random.below(32);
        self.write(SR_STATUS, status);
        self.push(KIND_IRET);
    }

    /// Earlier stores may have hit the tables: level-1 words 0 and 1 lead somewhere again.
    fn repair(&mut self) {
        for index in 0..2 {
            let (addr, word) = self.layout.good_pointer(&mut self.random, index);
            self.access(KIND_STORE, addr, word);
        }
        for _ in 0..self.random.below(4) {
            let (addr, word) = self.layout.change(&mut self.random);
            self.access(KIND_STORE, addr, word);
        }
    }

    /// Region 0 opens the map or everything, so that a run with regions is not denied throughout.
    fn grant(&mut self) {
        let map = (self.layout.base, self.layout.end());
        let (start, end) = self.random.pick(&[map, (0, u32::MAX)]);
        self.grant_region(start, end);
    }

    /// Region 0 grants everything from `start` up to `end`.
    pub fn grant_region(&mut self, start: u32, end: u32) {
        for (number, value) in [(0x10, start), (0x11, end), (0x12, 7)] {
            self.write(number, value);
        }
    }

    /// As supervisor: a root whose first word leads to a table. Says where both are.
    fn own_table(&mut self) -> (u32, u32) {
        self.push(KIND_TRAP);
        let (root, table) = self.layout.root_and_table();
        self.access(KIND_STORE, root, table | 1);
        (root, table)
    }

    /// User mode, translated by this root.
    fn enter_through(&mut self, root: u32) {
        self.write(SR_VCTL, 1);
        self.write(SR_PTBR, root);
        self.enter_user();
    }

    /// User mode over a table whose words from the second on are these.
    pub fn user_with_pages(&mut self, leaves: &[u32]) {
        let (root, table) = self.own_table();
        for (page, leaf) in (1..).zip(leaves) {
            self.access(KIND_STORE, table + 4 * page, *leaf);
        }
        self.enter_through(root);
    }

    /// Page 0 sits in the slot that is filled next, all others are taken, and an access goes
    /// from page 0 into page 1, which has to be walked for: its fill takes page 0's slot. Then
    /// another slot is invalidated, and page 0, missing now, fills the next one all the same.
    pub fn stolen_slot(&mut self) {
        let (root, table) = self.own_table();
        let first = u32::from(root == table);
        for page in first..first + 17 {
            let frame = self.layout.frame(self.random.below(self.layout.pages));
            self.access(KIND_STORE, table + 4 * page, frame | 0x1F);
        }
        self.enter_through(root);
        for page in [first].into_iter().chain(first + 2..first + 17) {
            self.access(KIND_LOAD, page * PAGE, 0);
        }
        let kind = self.random.pick(&[KIND_LOAD, KIND_STORE, KIND_FETCH]);
        let (value, back) = (self.random.word(), 1 + self.random.below(3));
        self.access(kind, (first + 1) * PAGE - back, value);
        self.write(SR_TLBINV, (first + 9) * PAGE);
        self.access(KIND_LOAD, first * PAGE, 0);
    }

    /// An access goes over the end of a level-2 table, and the next level-1 word leads nowhere.
    pub fn table_end(&mut self) {
        let (root, table) = self.own_table();
        let frame = self.layout.frame(self.random.below(self.layout.pages));
        self.access(KIND_STORE, table + 4 * 1_023, frame | 0x1F);
        let faults = [0, table, table | 0x41, table | 0x81, table | 3, 0xFFFF_F001];
        let word = self.random.pick(&faults);
        self.access(KIND_STORE, root + 4, word);
        self.enter_through(root);
        let kind = self.random.pick(&[KIND_LOAD, KIND_STORE, KIND_FETCH]);
        let (value, back) = (self.random.word(), self.random.below(3));
        self.access(kind, 0x3F_FFFF - back, value);
    }

    /// Sixteen pages become resident, and then are accessed in any order: there is a hit in every slot.
    pub fn every_slot(&mut self) {
        let (root, table) = self.own_table();
        let first = u32::from(root == table);
        for page in first..first + 16 {
            let frame = self.layout.frame(self.random.below(self.layout.pages));
            self.access(KIND_STORE, table + 4 * page, frame | 0x1F);
        }
        self.enter_through(root);
        for page in first..first + 16 {
            self.access(KIND_LOAD, page * PAGE, 0);
        }
        for _ in 0..24 {
            let kind = self
                .random
                .pick(&[KIND_LOAD, KIND_LOAD, KIND_STORE, KIND_FETCH]);
            let place = (first + self.random.below(16)) * PAGE + 4 * self.random.below(PAGE / 4);
            self.access(kind, place, 0);
        }
    }

    /// Each region grants something of a part of the map that is its own; users access their ends.
    pub fn every_region(&mut self) {
        self.push(KIND_TRAP);
        self.write(SR_VCTL, 0);
        let starts: Vec<u32> = (0..8).map(|n| self.layout.base + n * 0x100).collect();
        for (number, start) in (0x10..).step_by(4).zip(&starts) {
            let flags = self.random.pick(&[7, 7, 1, 2, 4]);
            for (field, value) in (0..).zip([*start, start + 0x80, flags]) {
                self.write(number + field, value);
            }
        }
        self.enter_user();
        for _ in 0..32 {
            let kind = self.random.pick(&[KIND_LOAD, KIND_STORE, KIND_FETCH]);
            let place = self.random.pick(&[0, 0, 0x40, 0x7C, 0x7C, 0x7D, 0x80]);
            let start = self.random.pick(&starts);
            self.access(kind, start + place, 0);
        }
    }

    /// An address to access: through the tables, inside the map, or at an end of something.
    pub fn address(&mut self, translate: bool) -> u32 {
        if translate && self.random.chance(85) {
            return self.addresses.next(&mut self.random);
        }
        if self.layout.pages > 0 && self.random.chance(50) {
            let page = self.layout.frame(self.random.below(self.layout.pages));
            return page + offset(&mut self.random);
        }
        edge(&mut self.random, &self.layout)
    }
}
