//! The listing with the state after each event, whole or what changed, for comparing what no listing shows.

use crate::digest::Digest;
use crate::listing;
use crate::machine::Machine;
use crate::state::{Cache, Controller, Privilege, Vm, REGIONS};

/// The state in seven lines.
type Lines = [String; 7];

/// Runs a script and prints it with its states.
pub fn inspect(script: &[u8]) -> String {
    listing::run(script, |machine| lines(machine).concat())
}

/// Runs a script and prints it, with all lines of the state after the first event and after the others those
/// that are not as before.
pub fn changes(script: &[u8]) -> String {
    let mut before = Lines::default();
    listing::run(script, |machine| {
        let now = lines(machine);
        let text = new_lines(&now, &before);
        before = now;
        text
    })
}

fn new_lines(now: &Lines, before: &Lines) -> String {
    let new = now.iter().zip(before).filter(|(line, old)| line != old);
    new.map(|(line, _)| line.as_str()).collect()
}

fn lines(machine: &Machine) -> Lines {
    let state = machine.state();
    [
        system(machine.sys.status(), &state.sys),
        regions(&state.sys),
        tlb(&state.sys.vm),
        controller(&state.irqc),
        cache(&state.cache),
        words("reg", &state.sys.reg),
        words("mem", &[Digest::new().bytes(machine.bus.bytes()).value()]),
    ]
}

fn words(name: &str, words: &[u32]) -> String {
    let digits: String = words.iter().map(|word| format!(" {word:08X}")).collect();
    format!("S {name}{digits}\n")
}

/// The bank is R28 to R30 of the mode that is not current.
fn system(status: u32, sys: &Privilege) -> String {
    let [first, second, third] = sys.other_bank;
    format!(
        "S sys {status:08X} {:08X} {:08X} {first:08X} {second:08X} {third:08X} {:X} {:08X} {:08X} {}\n",
        sys.epc,
        sys.cause,
        u8::from(sys.vm.enabled),
        sys.vm.ptbr,
        sys.vm.vfault,
        sys.vm.next_victim
    )
}

fn regions(sys: &Privilege) -> String {
    let region = |n: usize| {
        format!(
            " {:08X} {:08X} {:X}",
            sys.starts[n], sys.ends[n], sys.flags[n]
        )
    };
    let text: String = (0..REGIONS).map(region).collect();
    format!("S rgn{text}\n")
}

fn tlb(vm: &Vm) -> String {
    let text: String = vm
        .tlb
        .iter()
        .map(|slot| {
            let valid = u8::from(slot.valid);
            format!(
                " {valid:X}:{:05X}:{:05X}:{:02X}",
                slot.vpn, slot.ppn, slot.flags
            )
        })
        .collect();
    format!("S tlb{text}\n")
}

fn controller(irqc: &Controller) -> String {
    format!(
        "S irq {:04X} {:04X} {:04X}\n",
        irqc.pending, irqc.enable, irqc.source_level
    )
}

fn cache(cache: &Cache) -> String {
    let (i, d) = (&cache.i, &cache.d);
    format!(
        "S cac {:X} {:X} {:08X} {:08X} {:08X} {:08X} {:08X} {:08X} {:08X}\n",
        u8::from(i.enabled),
        u8::from(d.enabled),
        i.hits,
        i.misses,
        d.hits,
        d.misses,
        cache.miss_penalty,
        i.digest(),
        d.digest()
    )
}

#[cfg(test)]
mod tests {
    use std::collections::HashMap;

    use super::{changes, inspect};
    use crate::event::Event;
    use crate::generate;
    use crate::script::Script;
    use crate::store::MACHINE_SEED;

    /// A line is left out exactly where the last one of its name says the same, so nothing is lost.
    #[test]
    fn changes_are_the_new_lines() {
        for script in generate::scripts::stored(MACHINE_SEED) {
            let whole = inspect(&script);
            let mut last = HashMap::new();
            let kept = whole.split_inclusive('\n').filter(|line| {
                !line.starts_with("S ") || last.insert(&line[..5], *line) != Some(*line)
            });
            assert_eq!(changes(&script), kept.collect::<String>());
        }
    }

    #[test]
    fn the_other_bank_in_both_modes() {
        let set = |size, a| Event {
            kind: 15,
            size,
            a,
            ..Event::default()
        };
        let write = |aux, a| Event {
            kind: 6,
            aux,
            a,
            ..Event::default()
        };
        let iret = Event {
            kind: 4,
            ..Event::default()
        };
        let script = Script {
            events: vec![set(28, 0x11), write(0x08, 0x22), write(0, 8), iret],
            ..Script::default()
        };
        let text = inspect(&script.write());
        let banks: Vec<&str> = text
            .lines()
            .filter(|line| line.starts_with("S sys"))
            .map(|line| &line[33..41])
            .collect();
        assert_eq!(banks, ["00000000", "00000022", "00000022", "00000011"]);
        let registers = text.lines().rfind(|line| line.starts_with("S reg"));
        assert!(registers.is_some_and(|line| line.ends_with("00000022 00000000 00000000 00000000")));
    }
}
