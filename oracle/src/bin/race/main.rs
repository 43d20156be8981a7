//! The program `race`: the port's run over events beside the unchanged Rust's, in one process, as a table
//! of what an event takes on each side.

mod computer;
mod mix;
mod options;
mod processes;
mod rows;
mod sides;
mod table;
mod timing;
mod work;

use std::process::ExitCode;
use std::time::Duration;

use options::{Options, Wanted};
use oracle::script::MOST_EVENTS;
use rows::{Row, ROWS};
use table::{in_events, progress, show, Target};
use work::{scene, DATA};

/// Rows that are no runs over events in this process.
const FLOOR: &str = "floor";
const RUNNER: &str = "runner";
const RUNNER_LIMIT: Duration = Duration::from_millis(5);

fn main() -> ExitCode {
    let done = match options::read(std::env::args().skip(1)) {
        Ok(Wanted::Help) => {
            show(options::HELP);
            Ok(())
        }
        Ok(Wanted::Table(options)) => whole_table(&options),
        Ok(Wanted::Growth(options)) => growth(&options),
        Err(message) => Err(message),
    };
    match done {
        Ok(()) => ExitCode::SUCCESS,
        Err(message) => {
            eprintln!("race: {}", message.trim_end());
            ExitCode::FAILURE
        }
    }
}

fn whole_table(options: &Options) -> Result<(), String> {
    head(options);
    for row in ROWS.iter().filter(|row| options.has(row.name)) {
        one(row, options).map_err(|what| format!("{}: {what}", row.name))?;
    }
    if options.has(FLOOR) {
        lower_bound(options);
    }
    if options.has(RUNNER) {
        let target = Target::Under(RUNNER_LIMIT);
        processes::rows(&[MOST_EVENTS], options.repeat, &target)?;
    }
    show(&format!("\nmemory at most: {}\n", computer::memory()));
    Ok(())
}

fn one(row: &Row, options: &Options) -> Result<(), String> {
    progress(row.name);
    let pair = timing::race(&row.work(options.count), row.port, options.repeat)?;
    show(&in_events(row.name, &pair, &Target::Ratio(row.target)));
    Ok(())
}

fn lower_bound(options: &Options) {
    progress(FLOOR);
    let data = &scene().image[DATA as usize..];
    let pair = timing::floor(data, options.count, options.repeat);
    show(&in_events(FLOOR, &pair, &Target::None));
}

/// How cost grows: with the events of one call, to a hundred times as many, and with a script's, from none
/// to the most, over the largest image.
fn growth(options: &Options) -> Result<(), String> {
    head(options);
    for count in [options.count / 100, options.count / 10, options.count] {
        progress("loads");
        let pair = timing::race(&rows::loads(count), sides::port, options.repeat)?;
        show(&in_events("loads", &pair, &Target::None));
        show(&format!(
            "{:11} memory at most: {}\n",
            "",
            computer::memory()
        ));
    }
    let scripts = [0, 256, 1_024, MOST_EVENTS];
    processes::rows(&scripts, options.repeat, &Target::None)
}

fn head(options: &Options) {
    let (processor, repeat) = (computer::processor(), options.repeat);
    show(&format!(
        "{processor}; times of an event, the least of {repeat}\n\n"
    ));
    show(&table::head());
}
