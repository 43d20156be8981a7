//! The changes: each breaks one rule of document 01, keeps the text compiling, and shows in a state that
//! events can reach. At the end stand those that nothing can show.

/// A text that stands once in a file, and what it becomes.
pub struct Rule {
    pub name: &'static str,
    pub file: &'static str,
    pub old: &'static str,
    pub new: &'static str,
}

/// A rule that nothing can show, and why.
pub struct Silent {
    pub rule: Rule,
    pub reason: &'static str,
}

// Published files.
const IRQC: &str = "src32/src/devices/irqc/irqc.rs";
const CACHE: &str = "src32/src/cpu_cache.rs";
const PRIVILEGE: &str = "src32/src/cpu_privilege.rs";
// The oracle's own, which read document 01: the bus, an access's steps, the machine, scripts, listings.
const BUS: &str = "oracle/src/bus.rs";
const ACCESS: &str = "oracle/src/access.rs";
const MACHINE: &str = "oracle/src/machine.rs";
const SCRIPT: &str = "oracle/src/script.rs";
const LISTING: &str = "oracle/src/listing.rs";

const fn rule(
    name: &'static str,
    file: &'static str,
    old: &'static str,
    new: &'static str,
) -> Rule {
    Rule {
        name,
        file,
        old,
        new,
    }
}

#[rustfmt::skip]
pub const RULES: [Rule; 109] = [
    // Interrupt controller.
    rule("latch-on-level", IRQC, "if level && !old_level {", "if level {"),
    rule("highest-source", IRQC, "number: active.trailing_zeros() as u8,", "number: 15 - active.leading_zeros() as u8,"),
    rule("fall-forgotten", IRQC, "self.source_level &= !bit;", ""),
    rule("clear-drops-levels", IRQC, "self.pending &= !(mask & SOURCE_MASK);", "self.pending &= !mask; self.source_level &= !mask;"),
    rule("reset-keeps-levels", IRQC, "self.source_level = 0;", ""),
    rule("levels-unmasked", IRQC, "let changed = (self.source_level ^ levels) & mask;", "let changed = self.source_level ^ levels;"),
    rule("enable-low-clears-high", IRQC, "0x05 => self.enable = (self.enable & 0xFF00) | u16::from(value),", "0x05 => self.enable = u16::from(value),"),
    // Cache.
    rule("store-allocates", CACHE, "self.i.invalidate_line(pa);", "self.i.access(pa);"),
    rule("store-drops-conflicts", CACHE, "self.i.invalidate_line(pa);", "let (index, _) = self.i.index_tag(pa); self.i.tags[index] = INVALID;"),
    rule("sweep-of-nothing", CACHE, "let mut line = pa & !((1 << LINE_SHIFT) - 1);", "if len == 0 { return; } let mut line = pa & !((1 << LINE_SHIFT) - 1);"),
    rule("sweep-spares-data", CACHE, "self.d.tags[index] = INVALID;", ""),
    rule("sweep-only-cacheable", CACHE, "while line < end {", "while self.cacheable(line) && line < end {"),
    rule("sweep-of-255-lines", CACHE, "while line < end {", "let stop = line.saturating_add(255 << LINE_SHIFT); while line < end.min(stop) {"),
    rule("sweep-spares-topmost", CACHE, "while line < end {", "while line < end.min(0xFFFF_FFE0) {"),
    rule("sweep-goes-round", CACHE, "if line == 0 {", "if line == 0 { self.i.tags[0] = INVALID; self.d.tags[0] = INVALID;"),
    rule("disable-keeps-tags", CACHE, "if self.enabled != enabled {", "if enabled && !self.enabled {"),
    rule("reset-clears-penalty", CACHE, "self.d.enabled = true;", "self.d.enabled = true; self.miss_penalty = 0;"),
    rule("range-wraps", CACHE, "ram_end: ram_start.saturating_add(ram_size),", "ram_end: ram_start.wrapping_add(ram_size),"),
    rule("end-inclusive", CACHE, "pa < self.ram_end", "pa <= self.ram_end"),
    rule("lane-unmerged", CACHE, "let old = cache.read_reg(word);", "let old = 0u32;"),
    rule("tag-too-long", CACHE, "(index, pa >> self.size_shift)", "(index, pa >> LINE_SHIFT)"),
    rule("clear-keeps-misses", CACHE, "self.d.misses = 0;", ""),
    // Traps, registers, regions.
    rule("trap-keeps-ie", PRIVILEGE, "self.ie = false;", ""),
    rule("iret-exchanges-always", PRIVILEGE, "if self.pu && !self.user {", "if self.pu {"),
    rule("status-writes-u", PRIVILEGE, "self.pu = value & STATUS_PU != 0;", "self.pu = value & STATUS_PU != 0; self.user = value & STATUS_U != 0;"),
    rule("mode-not-saved", PRIVILEGE, "self.psm = mode;", ""),
    rule("user-copies-saved", PRIVILEGE, "Some(if self.user {", "Some(if false {"),
    rule("supervisor-translated", PRIVILEGE, "self.user && self.vm.enabled", "self.vm.enabled"),
    rule("region-flags-whole", PRIVILEGE, "region.flags = value & 7", "region.flags = value"),
    rule("region-end-inclusive", PRIVILEGE, "self.start <= addr && addr < self.end", "self.start <= addr && addr <= self.end"),
    rule("region-reserved-open", PRIVILEGE, "byte < CPU_RESERVED_BASE", "byte <= CPU_RESERVED_BASE"),
    rule("seven-regions", PRIVILEGE, "(region < REGION_COUNT && field < 3)", "(region < 7 && field < 3)"),
    rule("vctl-flushes", PRIVILEGE, "SR_VCTL => self.vm.enabled = value & VCTL_EN != 0,", "SR_VCTL => { self.vm.enabled = value & VCTL_EN != 0; self.vm.flush(); }"),
    rule("ptbr-keeps-tlb", PRIVILEGE, "                self.vm.flush();\n            }", "            }"),
    rule("ptbr-keeps-low-bits", PRIVILEGE, "self.vm.ptbr = value & !(PAGE_SIZE - 1);", "self.vm.ptbr = value;"),
    rule("flush-keeps-victim", PRIVILEGE, "self.next_victim = 0;", ""),
    rule("tlbinv-zeroes", PRIVILEGE, "entry.valid = false;", "*entry = TlbEntry::default();"),
    rule("tlbinv-by-number", PRIVILEGE, "let vpn = va >> PAGE_SHIFT;", "let vpn = va;"),
    // Walks, checks, data.
    rule("walk-keeps-low-bits", PRIVILEGE, "(self.ptbr & !(PAGE_SIZE - 1)).wrapping_add", "self.ptbr.wrapping_add"),
    rule("short-table", PRIVILEGE, "((va >> PAGE_SHIFT) & 0x3FF)", "((va >> PAGE_SHIFT) & 0x1FF)"),
    rule("one-page-checked", PRIVILEGE, "if page == last >> PAGE_SHIFT || page.wrapping_add(1) == 0 {", "if true {"),
    rule("load-contiguous", PRIVILEGE, "<= PAGE_SIZE - 4) {\n            return bus.read_u32_be", "< PAGE_SIZE) {\n            return bus.read_u32_be"),
    rule("store-contiguous", PRIVILEGE, "<= PAGE_SIZE - 4) {\n            bus.write_u32_be", "< PAGE_SIZE) {\n            bus.write_u32_be"),
    rule("store-stops-at-top", PRIVILEGE, "let byte = self.physical(va.wrapping_add(index));\n            bus.write_u8", "let byte = self.physical(va.saturating_add(index));\n            bus.write_u8"),
    rule("free-slot-first", PRIVILEGE, "self.tlb[self.next_victim] = entry;", "let slot = self.tlb.iter().position(|e| !e.valid).unwrap_or(self.next_victim); self.tlb[slot] = entry;"),
    rule("denied-fills-nothing", PRIVILEGE, "self.vm.fill(entry);", "if entry.flags & PTE_U != 0 { self.vm.fill(entry); }"),
    rule("w-without-r", PRIVILEGE, "&& (l2 & PTE_W == 0 || l2 & PTE_R != 0);", ";"),
    rule("level-1-huge", PRIVILEGE, " || l1 & PTE_RWX != 0 {", " {"),
    rule("leaf-reserved-bits", PRIVILEGE, "&& l2 & PTE_RESERVED == 0", ""),
    rule("frame-unlimited", PRIVILEGE, "|| entry.ppn << PAGE_SHIFT >= CPU_RESERVED_BASE", ""),
    rule("page-unlimited", PRIVILEGE, "if page << PAGE_SHIFT >= CPU_RESERVED_BASE {", "if page << PAGE_SHIFT > CPU_RESERVED_BASE {"),
    rule("fault-at-page-start", PRIVILEGE, "let fault_addr = if page == addr >> PAGE_SHIFT {", "let fault_addr = if page == addr >> PAGE_SHIFT && page == last >> PAGE_SHIFT {"),
    rule("stolen-slot-identity", PRIVILEGE, ".map_or(0, |entry| entry.ppn);", ".map_or(va >> PAGE_SHIFT, |entry| entry.ppn);"),
    rule("translate-drops-offset", PRIVILEGE, "physical: (entry.ppn << PAGE_SHIFT) | (va & (PAGE_SIZE - 1)),", "physical: entry.ppn << PAGE_SHIFT,"),
    // Causes, vectors' neighbours, and the debugger's view.
    rule("cause-without-protection", PRIVILEGE, "if protection { 8 } else { 0 }", "0"),
    rule("cause-code-lower", PRIVILEGE, "(code << 16)", "(code << 15)"),
    rule("fault-told-as-missing", PRIVILEGE, "if page << PAGE_SHIFT >= CPU_RESERVED_BASE {\n                return Err(fault(true));", "if page << PAGE_SHIFT >= CPU_RESERVED_BASE {\n                return Err(fault(false));"),
    rule("trap-forgets-pu", PRIVILEGE, "self.pu = self.user;", ""),
    rule("iret-keeps-ie", PRIVILEGE, "self.ie = self.pie;", ""),
    rule("flags-without-u", PRIVILEGE, "flags: l2 & (PTE_RWX | PTE_U),", "flags: l2 & PTE_RWX | PTE_U,"),
    // The bus.
    rule("load-little-endian", BUS, "u32::from_be_bytes(bytes)", "u32::from_le_bytes(bytes)"),
    rule("store-little-endian", BUS, "value.to_be_bytes()", "value.to_le_bytes()"),
    rule("word-store-stops-at-top", BUS, "self.write_u8(addr.wrapping_add(index), byte);", "self.write_u8(addr.saturating_add(index), byte);"),
    rule("outside-reads-0", BUS, "None => {\n                self.error = true;", "None => {"),
    rule("outside-writes-quietly", BUS, "None => self.error = true,", "None => {}"),
    rule("store-all-or-nothing", BUS, "for (index, byte) in (0..).zip(value.to_be_bytes()) {", "if (0..4).any(|i| self.place(addr.wrapping_add(i)).is_none()) { self.error = true; return; }\n        for (index, byte) in (0..).zip(value.to_be_bytes()) {"),
    rule("last-byte-outside", BUS, "(offset < self.bytes.len())", "(offset + 1 < self.bytes.len())"),
    rule("error-stays", BUS, "std::mem::take(&mut self.error)", "self.error"),
    rule("failed-read-uncounted", BUS, "self.words_read += 1;", "self.words_read += u32::from(self.place(addr).is_some());"),
    // Sizes and answers of an access.
    rule("fetch-of-one-byte", ACCESS, "Access::Fetch => matches!(size, 2 | 4),", "Access::Fetch => matches!(size, 1 | 2 | 4),"),
    rule("size-of-three", ACCESS, "Access::Read | Access::Write => matches!(size, 1 | 2 | 4),", "Access::Read | Access::Write => matches!(size, 1..=4),"),
    rule("load-of-what-is-inside", ACCESS, "let value = sys.read_data(bus, addr, u32::from(size));", "let value = sys.read_data(bus, addr, u32::from(size)); bus.take_bus_error();"),
    rule("store-error-unseen", ACCESS, "sys.write_data(bus, addr, u32::from(size), value);", "sys.write_data(bus, addr, u32::from(size), value); bus.take_bus_error();"),
    // The combined access and the events.
    rule("cache-at-virtual", MACHINE, "self.present(self.sys.physical(a), access)", "self.present(a, access)"),
    rule("denied-asks-cache", MACHINE, "if let Err(exception) = verdict {", "if let Err(exception) = verdict { self.present(a, access);"),
    rule("denied-shows-no-reads", MACHINE, "stall: 0,\n                reads,", "stall: 0,\n                reads: 0,"),
    rule("bus-error-is-free", MACHINE, "data.map_or(Outcome::BusError, Outcome::Value),\n            stall,", "data.map_or(Outcome::BusError, Outcome::Value),\n            stall: data.map_or(0, |_| stall),"),
    rule("stores-stall", MACHINE, "self.cache.store(physical);\n                0", "self.cache.store(physical);\n                self.cache.miss_penalty"),
    rule("exception-sets-cause", MACHINE, "if let Err(exception) = verdict {", "if let Err(exception) = verdict { self.sys.cause = exception.cause();"),
    rule("exception-enters-trap", MACHINE, "if let Err(exception) = verdict {", "if let Err(exception) = verdict { self.sys.enter_trap(&mut self.reg, a, exception.cause(), InstructionMode::Normal);"),
    rule("iret-answers-0", MACHINE, "Answer::value(self.sys.leave_trap(&mut self.reg).0)", "Answer::value(self.sys.leave_trap(&mut self.reg).0 & 0)"),
    rule("register-low-byte", MACHINE, "self.sys.read_sr(event.aux, &self.reg)", "self.sys.read_sr(event.aux & 0xFF, &self.reg)"),
    rule("cache-offset-low-byte", MACHINE, "self.cache.read_reg(event.a)", "self.cache.read_reg(event.a & 0xFF)"),
    rule("mode-by-any-bit", MACHINE, "match event.aux % 2 {", "match event.aux {"),
    rule("level-by-low-bit", MACHINE, "event.size != 0", "event.size % 2 != 0"),
    rule("source-low-byte", MACHINE, "if let Ok(number) = u8::try_from(number) {", "if let Ok(number) = u8::try_from(number & 0xFF) {"),
    rule("output-without-valid", MACHINE, "256 + u32::from(output.number)", "u32::from(output.number)"),
    rule("r0-is-0", MACHINE, "*register = event.a;", "*register = if event.size == 0 { 0 } else { event.a };"),
    rule("register-31-refused", MACHINE, "match self.reg.get_mut(usize::from(event.size)) {", "match self.reg[..31].get_mut(usize::from(event.size)) {"),
    rule("kind-modulo-16", MACHINE, "match event.kind {\n            KIND_LOAD", "match event.kind % 16 {\n            KIND_LOAD"),
    rule("reset-keeps-cache", MACHINE, "self.cache.reset();", ""),
    rule("reset-keeps-controller", MACHINE, "self.irqc.reset();", ""),
    rule("reset-clears-registers", MACHINE, "self.irqc.reset();", "self.irqc.reset(); self.reg = [0; 32];"),
    rule("penalty-lost", MACHINE, "cache.miss_penalty = script.last;", ""),
    // Scripts and listings.
    rule("header-too-short", SCRIPT, "script.len() < HEADER ||", "script.len() <= HEADER ||"),
    rule("longest-refused", SCRIPT, "script.len() > LONGEST {", "script.len() >= LONGEST {"),
    rule("most-events-refused", SCRIPT, "count > MOST_EVENTS ||", "count >= MOST_EVENTS ||"),
    rule("largest-image-refused", SCRIPT, "length > LARGEST_IMAGE ||", "length >= LARGEST_IMAGE ||"),
    rule("image-unaligned", SCRIPT, " || !length.is_multiple_of(PAGE) {", " {"),
    rule("base-unaligned", SCRIPT, "base.is_multiple_of(PAGE) && ", ""),
    rule("map-below-top", SCRIPT, "<= u64::from(RESERVED)", "< u64::from(RESERVED)"),
    rule("map-not-asked", SCRIPT, "if !map_is_good(base, length) {", "if false {"),
    rule("section-in-header", SCRIPT, "self.start >= HEADER as u64 && ", ""),
    rule("section-at-end-refused", SCRIPT, "self.end <= script.len() as u64", "self.end < script.len() as u64"),
    rule("empty-section-tested", SCRIPT, "self.is_empty() || (self.start", "(self.start"),
    rule("touching-refused", SCRIPT, "self.start < other.end && other.start < self.end", "self.start <= other.end && other.start <= self.end"),
    rule("overlap-allowed", SCRIPT, " || events.overlaps(&image) {", " {"),
    rule("refusal-number", LISTING, "format!(\"refused {number}\\n\")", "format!(\"refused {}\\n\", number + 1)"),
    rule("bus-error-digits", LISTING, "Outcome::BusError => ('B', 0),", "Outcome::BusError => ('B', 0x8002_0000),"),
];

#[rustfmt::skip]
pub const SILENT: [Silent; 6] = [
    Silent {
        rule: rule("page-zero-test", PRIVILEGE, "if page == last >> PAGE_SHIFT || page.wrapping_add(1) == 0 {", "if page == last >> PAGE_SHIFT {"),
        reason: "pages from 0xFFFF0000 on were refused before, so no page that passed is followed by page 0",
    },
    Silent {
        rule: rule("sweep-of-256-lines", CACHE, "while line < end {", "let stop = line.saturating_add(256 << LINE_SHIFT); while line < end.min(stop) {"),
        reason: "256 lines in a row have every index among them (W-204)",
    },
    Silent {
        rule: rule("clear-any-bit", IRQC, "self.pending &= !(mask & SOURCE_MASK);", "self.pending &= !mask;"),
        reason: "sixteen sources fill the word: the mask has no other bits",
    },
    Silent {
        rule: rule("same-levels-set", IRQC, "if changed == 0 {", "if false {"),
        reason: "where no level changes the loop behind the test sets none",
    },
    Silent {
        rule: rule("word-stops-at-top", BUS, "self.read_u8(addr.wrapping_add(index))", "self.read_u8(addr.saturating_add(index))"),
        reason: "a word around 2^32 has a byte at or above 0xFFFF0000, where no map reaches: it has no value either way",
    },
    Silent {
        rule: rule("place-wraps", BUS, "addr.checked_sub(self.base)? as usize", "addr.wrapping_sub(self.base) as usize"),
        reason: "a map ends at or below 0xFFFF0000: an address below its base lies further from it, modulo 2^32, than the map is long",
    },
];
