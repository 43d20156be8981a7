//! Makes an input smaller as long as it still shows what it is kept for.

use crate::event::Event;
use crate::script::{Script, PAGE};

/// The smallest input found for which `shows` holds, as it does for `bytes`.
pub fn smallest(bytes: &[u8], shows: &dyn Fn(&[u8]) -> bool) -> Vec<u8> {
    match Script::read(bytes) {
        Ok(script) if shows(&script.write()) => {
            let shows = |script: &Script| shows(&script.write());
            until_stable(script, |script| smaller_script(script, &shows)).write()
        }
        _ => until_stable(bytes.to_vec(), |bytes| smaller_bytes(&bytes, shows)),
    }
}

/// Repeats a step until it changes nothing.
fn until_stable<T: Clone + PartialEq>(mut value: T, step: impl Fn(T) -> T) -> T {
    loop {
        let next = step(value.clone());
        if next == value {
            return value;
        }
        value = next;
    }
}

/// Fewer events, then a shorter image, then zeros in place of bytes and fields.
fn smaller_script(mut script: Script, shows: &dyn Fn(&Script) -> bool) -> Script {
    script.events = without_parts(&script.events, &|events| {
        let events = events.to_vec();
        shows(&Script {
            events,
            ..script.clone()
        })
    });
    shorten_image(&mut script, shows);
    script.image = zeroed(&script.image, &|image| {
        let image = image.to_vec();
        shows(&Script {
            image,
            ..script.clone()
        })
    });
    for change in CHANGES_OF_HEADER {
        keep_if(&mut script, shows, change);
    }
    for index in 0..script.events.len() {
        for change in CHANGES_OF_EVENT {
            keep_if(&mut script, shows, |script| {
                change(&mut script.events[index])
            });
        }
    }
    script
}

const CHANGES_OF_HEADER: [fn(&mut Script); 2] =
    [|script| script.base = 0, |script| script.last = 0];

const CHANGES_OF_EVENT: [fn(&mut Event); 4] = [
    |event| event.size = 0,
    |event| event.aux = 0,
    |event| event.a = 0,
    |event| event.b = 0,
];

/// Keeps a change if the script still shows it.
fn keep_if(
    script: &mut Script,
    shows: &dyn Fn(&Script) -> bool,
    change: impl Fn(&mut Script),
) -> bool {
    let mut changed = script.clone();
    change(&mut changed);
    let kept = shows(&changed);
    if kept {
        *script = changed;
    }
    kept
}

/// Takes pages from the image's end.
fn shorten_image(script: &mut Script, shows: &dyn Fn(&Script) -> bool) {
    let page = PAGE as usize;
    while script.image.len() >= page
        && keep_if(script, shows, |script| {
            let length = script.image.len() - page;
            script.image.truncate(length);
        })
    {}
}

/// Bytes that are no script: fewer of them, and zeros.
fn smaller_bytes(bytes: &[u8], shows: &dyn Fn(&[u8]) -> bool) -> Vec<u8> {
    let fewer = without_parts(bytes, shows);
    zeroed(&fewer, shows)
}

/// Leaves parts out: halves first, then ever smaller ones, down to single elements.
fn without_parts<T: Clone>(all: &[T], shows: &dyn Fn(&[T]) -> bool) -> Vec<T> {
    let mut kept = all.to_vec();
    let mut part = kept.len();
    while part > 0 {
        let mut at = 0;
        while at < kept.len() {
            let mut fewer = kept.clone();
            fewer.drain(at..(at + part).min(kept.len()));
            if shows(&fewer) {
                kept = fewer;
            } else {
                at += part;
            }
        }
        part /= 2;
    }
    kept
}

/// Puts zeros over parts: all, halves, and ever smaller ones, down to single bytes.
fn zeroed(bytes: &[u8], shows: &dyn Fn(&[u8]) -> bool) -> Vec<u8> {
    let mut kept = bytes.to_vec();
    let mut part = kept.len();
    while part > 0 {
        for at in (0..kept.len()).step_by(part) {
            let end = (at + part).min(kept.len());
            if kept[at..end].iter().all(|byte| *byte == 0) {
                continue;
            }
            let mut plainer = kept.clone();
            plainer[at..end].fill(0);
            if shows(&plainer) {
                kept = plainer;
            }
        }
        part /= 2;
    }
    kept
}

#[cfg(test)]
mod tests {
    use super::smallest;
    use crate::generate::scripts;
    use crate::machine::KIND_EXTERNAL;
    use crate::script::Script;

    /// A script is kept for one event and one byte of its image.
    #[test]
    fn a_script_shrinks_to_what_matters() {
        let shows = |bytes: &[u8]| {
            Script::read(bytes).is_ok_and(|script| {
                let sweeps = script
                    .events
                    .iter()
                    .filter(|event| event.kind == KIND_EXTERNAL);
                script.image.get(70) == Some(&0x5A) && sweeps.into_iter().any(|event| event.b > 9)
            })
        };
        let mut script = Script::read(&scripts::long(3)).expect("a good script");
        script.image.resize(0x4000, 1);
        script.image[70] = 0x5A;
        let small = Script::read(&smallest(&script.write(), &shows)).expect("still good");
        assert_eq!(small.events.len(), 1);
        assert_eq!(small.image.len(), 0x1000);
        assert_eq!(small.image.iter().filter(|byte| **byte != 0).count(), 1);
        assert_eq!((small.base, small.last, small.events[0].a), (0, 0, 0));
    }

    #[test]
    fn other_bytes_shrink_too() {
        let bytes: Vec<u8> = (0..20).collect();
        assert_eq!(smallest(&bytes, &|bytes| bytes.contains(&7)), [7]);
    }
}
