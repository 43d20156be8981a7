//! What can be wrong with a whole script: its header, its sections, its length, single bits, or
//! everything. Some damage leaves a good script.

use crate::random::Random;
use crate::script::{Script, HEADER};

/// The script's bytes with its sections in another order and with gaps, all of which is good.
pub fn rearranged(script: &Script, random: &mut Random) -> Vec<u8> {
    let bytes = script.write();
    let image_at = bytes.len() - script.image.len();
    let (events, image) = (&bytes[HEADER..image_at], &bytes[image_at..]);
    let gaps = [0; 3].map(|_| random.below(20) as usize);
    let new_image_at = HEADER + gaps[0];
    let new_events_at = new_image_at + image.len() + gaps[1];
    let mut moved = bytes[..HEADER].to_vec();
    put(&mut moved, 1, new_events_at as u32);
    put(&mut moved, 3, new_image_at as u32);
    for (gap, part) in gaps.into_iter().zip([image, events, &[]]) {
        moved.extend((0..gap).map(|_| random.byte()));
        moved.extend(part);
    }
    moved
}

/// The script's bytes with one thing wrong. Where nothing is left there is nothing to damage.
pub fn damaged(mut bytes: Vec<u8>, random: &mut Random) -> Vec<u8> {
    if bytes.is_empty() {
        return bytes;
    }
    match random.below(6) {
        0 => bytes.truncate(random.below(bytes.len() as u32) as usize),
        1 => bytes.truncate(random.below(HEADER as u32 + 2) as usize),
        2 => flip(&mut bytes, random, HEADER),
        3 => {
            let length = bytes.len();
            flip(&mut bytes, random, length);
        }
        4 => bytes = (0..random.below(200)).map(|_| random.byte()).collect(),
        _ => {
            let place = random.below(6) as usize;
            let word = header_word(random, bytes.len() as u32);
            put(&mut bytes, place, word);
        }
    }
    bytes
}

fn flip(bytes: &mut [u8], random: &mut Random, within: usize) {
    let at = random.below(within.min(bytes.len()) as u32) as usize;
    bytes[at] ^= 1 << random.below(8);
}

/// Words at which one of the header's rules changes.
fn header_word(random: &mut Random, length: u32) -> u32 {
    random.pick(&[
        0,
        1,
        23,
        24,
        25,
        36,
        2_048,
        2_049,
        4_095,
        4_096,
        4_097,
        32_768,
        36_864,
        length - 1,
        length,
        length.wrapping_sub(4_096),
        0x8000_0000,
        0xFFFE_F000,
        0xFFFF_0000,
        0xFFFF_1000,
        u32::MAX,
    ])
}

fn put(bytes: &mut [u8], place: usize, word: u32) {
    if let Some(there) = bytes.get_mut(4 * place..4 * place + 4) {
        there.copy_from_slice(&word.to_be_bytes());
    }
}
