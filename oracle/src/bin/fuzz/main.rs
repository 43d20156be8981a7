//! The fuzzer's target: any bytes as a script on both sides. A difference ends the process, and the
//! fuzzer keeps the bytes. `fuzz/run` builds and starts it.

#![no_main]

use oracle::both::compare;
use oracle::machine::KIND_EXTERNAL;
use oracle::port::machine::{listing, listing_within};
use oracle::script::Script;
use oracle::watch::Unwatched;

/// The bytes that the external writes of one script may sweep: more take the published Rust long and show nothing new.
const MOST_SWEPT: u64 = 1 << 20;

/// Tells the fuzzer to leave an input out of its corpus.
const REJECTED: i32 = -1;

/// # Safety
///
/// The fuzzer passes a buffer and its length.
#[no_mangle]
pub unsafe extern "C" fn LLVMFuzzerTestOneInput(data: *const u8, size: usize) -> i32 {
    // SAFETY: by this function's own condition; an empty input may come without a buffer.
    let script = match size {
        0 => &[],
        _ => unsafe { std::slice::from_raw_parts(data, size) },
    };
    if swept(script) > MOST_SWEPT {
        return REJECTED;
    }
    let same = compare(script, &mut Unwatched).and_then(|()| cut_off(script));
    if let Err(difference) = same {
        eprintln!("{difference}");
        std::process::abort();
    }
    0
}

/// A listing that has no room is cut off where the buffer ends, here at a place that the script's length
/// chooses.
fn cut_off(script: &[u8]) -> Result<(), String> {
    let whole = listing(script);
    let room = script.len() % (whole.len() + 1);
    match listing_within(script, room) == whole[..room] {
        true => Ok(()),
        false => Err(format!("the listing in {room} bytes differs")),
    }
}

/// What the script's external writes sweep in all.
fn swept(script: &[u8]) -> u64 {
    let Ok(script) = Script::read(script) else {
        return 0;
    };
    let lengths = script
        .events
        .iter()
        .filter(|event| event.kind == KIND_EXTERNAL);
    lengths.map(|event| u64::from(event.b)).sum()
}
