//! A script on both sides: the port's listing beside the published one's, and after each event the
//! whole state and all of memory.

use std::fmt::Debug;

use crate::event::Event;
use crate::listing;
use crate::machine::{Answer, Machine};
use crate::port::machine::{self as port, Stepped};
use crate::script::Script;
use crate::state;
use crate::watch::{Seen, Watch};

/// Compares a script, good or not, and says what differs first.
pub fn compare(bytes: &[u8], watch: &mut impl Watch) -> Result<(), String> {
    let listed = port::listing(bytes);
    let read = Script::read(bytes);
    watch.script(&read);
    let text = match read {
        Ok(script) => step_both(&script, watch)?,
        Err(number) => listing::refused(number),
    };
    if text.as_bytes() == listed {
        return Ok(());
    }
    let listed = String::from_utf8_lossy(&listed);
    same("listing", &lines(&text), &lines(&listed))
}

fn lines(text: &str) -> Vec<&str> {
    text.split('\n').collect()
}

/// Steps both sides through a script; the published side's listing.
fn step_both(script: &Script, watch: &mut impl Watch) -> Result<String, String> {
    let mut published = Machine::new(script);
    let mut port = port::Machine::new(script);
    let mut before = published.state();
    same("state at the start", &before, &port.state)?;
    let mut text = String::new();
    for (index, event) in script.events.iter().enumerate() {
        let (answer, after) = step(&mut published, &mut port, event)
            .map_err(|what| format!("event {index}, {event}: {what}"))?;
        text += &listing::line(index, &answer);
        watch.event(&Seen {
            event,
            before: &before,
            answer: &answer,
            after: &after,
        });
        before = after;
    }
    Ok(text + &listing::end(script.events.len()))
}

/// One event on both sides: the answer and the state that both have, or how they differ.
pub fn step(
    published: &mut Machine,
    port: &mut port::Machine,
    event: &Event,
) -> Result<(Answer, state::Machine), String> {
    let answer = published.step(event);
    let after = published.state();
    let stepped = port.step(event);
    same_answer(&answer, &stepped)?;
    same("state", &after, &stepped.machine)?;
    same("memory", &published.bus.bytes(), &port.memory.as_slice())?;
    Ok((answer, after))
}

fn same_answer(published: &Answer, port: &Stepped) -> Result<(), String> {
    let (letter, digits) = listing::shown(published.outcome);
    same(
        "line",
        &(letter, digits, u64::from(published.stall), published.reads),
        &(char::from(port.letter), port.digits, port.stall, port.reads),
    )
}

/// Two values of one kind; if they differ, the places at which they do.
pub fn same<T: PartialEq + Debug>(name: &str, published: &T, port: &T) -> Result<(), String> {
    if published == port {
        return Ok(());
    }
    let (published, port) = (format!("{published:#?}"), format!("{port:#?}"));
    let places: Vec<String> = published
        .lines()
        .zip(port.lines())
        .enumerate()
        .filter(|(_, (one, other))| one != other)
        .map(|(line, (one, other))| {
            let (one, other) = (plain(one), plain(other));
            format!("\n  line {line}: published {one}; port {other}")
        })
        .take(SHOWN)
        .collect();
    Err(format!("the {name} differs{}", places.concat()))
}

/// A line of `{:#?}` without its indent and comma.
fn plain(line: &str) -> &str {
    line.trim().trim_end_matches(',')
}

/// So many places of a difference are shown.
const SHOWN: usize = 8;
