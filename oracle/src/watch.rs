//! What can be told about a script while it runs.

use crate::event::Event;
use crate::machine::{Answer, Machine};
use crate::script::Script;
use crate::state;

/// What one event did.
pub struct Seen<'a> {
    pub event: &'a Event,
    pub before: &'a state::Machine,
    pub answer: &'a Answer,
    pub after: &'a state::Machine,
}

/// Who is told.
pub trait Watch {
    /// A script is good, or refused with a number.
    fn script(&mut self, read: &Result<Script, u32>);
    fn event(&mut self, seen: &Seen);
}

/// Nobody.
pub struct Unwatched;

impl Watch for Unwatched {
    fn script(&mut self, _: &Result<Script, u32>) {}
    fn event(&mut self, _: &Seen) {}
}

/// Runs a script on the published side alone.
pub fn run(bytes: &[u8], watch: &mut impl Watch) {
    let read = Script::read(bytes);
    watch.script(&read);
    let Ok(script) = read else {
        return;
    };
    let mut machine = Machine::new(&script);
    let mut before = machine.state();
    for event in &script.events {
        let answer = machine.step(event);
        let after = machine.state();
        watch.event(&Seen {
            event,
            before: &before,
            answer: &answer,
            after: &after,
        });
        before = after;
    }
}
