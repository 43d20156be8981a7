//! The listing of document 01: one line for each event, and a last one.

use crate::machine::{Answer, Machine, Outcome};
use crate::script::Script;

/// Runs a script and prints it.
pub fn listing(script: &[u8]) -> String {
    run(script, |_| String::new())
}

/// The lines of a whole run, or of its refusal. `after` says what stands behind an event's line: nothing in
/// a listing, the state in an inspection.
pub fn run(script: &[u8], mut after: impl FnMut(&Machine) -> String) -> String {
    let script = match Script::read(script) {
        Ok(script) => script,
        Err(number) => return refused(number),
    };
    let mut machine = Machine::new(&script);
    let mut text = String::new();
    for (index, event) in script.events.iter().enumerate() {
        let answer = machine.step(event);
        text += &line(index, &answer);
        text += &after(&machine);
    }
    text + &end(script.events.len())
}

/// All that a refused script prints.
pub fn refused(number: u32) -> String {
    format!("refused {number}\n")
}

/// The last line of a run.
pub fn end(events: usize) -> String {
    format!("end {events}\n")
}

/// The letter and the digits of an event's line.
pub fn shown(outcome: Outcome) -> (char, u32) {
    match outcome {
        Outcome::Value(value) => ('V', value),
        Outcome::Exception(cause) => ('X', cause),
        Outcome::BusError => ('B', 0),
        Outcome::Refusal(number) => ('N', number),
    }
}

/// An event's line.
pub fn line(index: usize, answer: &Answer) -> String {
    let (letter, digits) = shown(answer.outcome);
    format!(
        "{index} {letter} {digits:08X} {} {}\n",
        answer.stall, answer.reads
    )
}

#[cfg(test)]
mod tests {
    use super::listing;
    use crate::event::Event;
    use crate::script::Script;

    /// The whole case of document 01.
    #[test]
    fn whole_case() {
        let load = |a| Event {
            size: 4,
            a,
            ..Event::default()
        };
        let write = Event {
            kind: 6,
            aux: 0x13,
            ..Event::default()
        };
        let mut image = vec![0; 4096];
        image[..4].copy_from_slice(&[1, 2, 3, 4]);
        let script = Script {
            events: vec![load(0), load(0x1C), write, load(0x1000)],
            image,
            base: 0,
            last: 8,
        };
        let bytes = script.write();
        assert_eq!(bytes[4..8], 24u32.to_be_bytes());
        assert_eq!(bytes[12..16], 72u32.to_be_bytes());
        assert_eq!(
            listing(&bytes),
            "0 V 01020304 8 0\n1 V 00000000 0 0\n2 N 00000003 0 0\n3 B 00000000 0 0\nend 4\n"
        );
    }

    #[test]
    fn a_refused_script_prints_its_number_alone() {
        assert_eq!(listing(&[]), "refused 4\n");
        assert_eq!(listing(&[0; 24]), "end 0\n");
    }
}
