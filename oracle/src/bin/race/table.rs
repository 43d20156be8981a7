//! The table's text, and its way to the screen.

use std::io::{stderr, stdout, IsTerminal, Write};
use std::time::Duration;

use crate::timing::Pair;

/// Where the port is to be.
pub enum Target {
    /// At most so much of the Rust's time.
    Ratio(f64),
    /// Under so much time for all of the row.
    Under(Duration),
    /// Nothing is asked of it.
    None,
}

impl Target {
    fn met(&self, pair: &Pair) -> &'static str {
        let met = match self {
            Target::Ratio(most) => pair.ratio() <= *most,
            Target::Under(limit) => pair.port < *limit,
            Target::None => return "",
        };
        if met {
            "yes"
        } else {
            "no"
        }
    }

    fn text(&self) -> String {
        match self {
            Target::Ratio(most) if *most < SMALL => format!("{most}"),
            Target::Ratio(most) => format!("{most:.2}"),
            Target::Under(limit) => format!("{} ms", limit.as_millis()),
            Target::None => String::new(),
        }
    }
}

/// The head of the table.
pub fn head() -> String {
    columns(["row", "events", "Rust", "port", "ratio", "target", "met"])
}

/// A row in nanoseconds an event.
pub fn in_events(name: &str, pair: &Pair, target: &Target) -> String {
    let (rust, port) = pair.each();
    line(
        name,
        pair,
        target,
        [rust, port].map(|each| match each {
            0.0..LONG => format!("{each:.2} ns"),
            _ => format!("{:.2} ms", each / 1e6),
        }),
    )
}

/// From here on an event's nanoseconds are shown as milliseconds.
const LONG: f64 = 1e5;
/// Below this a ratio has no two digits to show.
const SMALL: f64 = 0.01;

fn ratio(pair: &Pair) -> String {
    match pair.ratio() {
        small if small < SMALL => format!("{small:.0e}"),
        ratio => format!("{ratio:.2}"),
    }
}

/// A row in milliseconds for all of it.
pub fn in_all(name: &str, pair: &Pair, target: &Target) -> String {
    let times = [pair.rust, pair.port];
    let shown = times.map(|time| format!("{:.2} ms", time.as_secs_f64() * 1e3));
    line(name, pair, target, shown)
}

fn line(name: &str, pair: &Pair, target: &Target, [rust, port]: [String; 2]) -> String {
    columns([
        name,
        &pair.events.to_string(),
        &rust,
        &port,
        &ratio(pair),
        &target.text(),
        target.met(pair),
    ])
}

fn columns([name, events, rust, port, ratio, target, met]: [&str; 7]) -> String {
    let line =
        format!("{name:11} {events:>10} {rust:>10} {port:>10} {ratio:>6} {target:>7}  {met}");
    format!("{}\n", line.trim_end())
}

/// Prints some of the output, over what `progress` left.
pub fn show(text: &str) {
    if stderr().is_terminal() {
        eprint!("\r\x1B[K");
    }
    print!("{text}");
    let _ = stdout().flush();
}

/// Says what is being measured, on a terminal alone.
pub fn progress(name: &str) {
    if stderr().is_terminal() {
        eprint!("\r\x1B[K{name} ");
    }
}
