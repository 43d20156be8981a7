//! One comparison for every component: two sides, one row of events, line against line.

use oracle::event::{Event, Replay};

/// Both sides, and whether an event makes the earlier ones irrelevant to the state.
pub struct Pair<'a> {
    pub published: &'a mut dyn Replay,
    pub port: &'a mut dyn Replay,
    pub restarts: fn(&Event) -> bool,
}

/// Steps both sides through the events: how many agreed, or the first difference with the events
/// since the last restart, which are what it takes to see it again.
pub fn compare(pair: Pair, events: impl Iterator<Item = Event>) -> Result<u64, String> {
    let mut trail: Vec<Event> = Vec::new();
    let mut agreed = 0;
    for event in events {
        if (pair.restarts)(&event) {
            trail.clear();
        }
        trail.push(event);
        let published = pair.published.step(&event);
        let port = pair.port.step(&event);
        if published != port {
            return Err(difference(agreed, &trail, &published, &port));
        }
        agreed += 1;
    }
    Ok(agreed)
}

fn difference(agreed: u64, trail: &[Event], published: &str, port: &str) -> String {
    let steps: String = trail.iter().map(|event| format!("  {event}\n")).collect();
    format!(
        "after {agreed} operations that agreed, the last of these differs:\n{steps}\
         published: {published}\nport:      {port}"
    )
}
