//! A readable list of mappings as the bytes of its frames.

use crate::call::{Answer, Call, PAGE_SIZE};
use crate::port;
use std::io::Read;

/// A list has a line for each mapping: virtual page, physical page (hexadecimal) and letters of R, W, X, U.
/// Empty lines and lines that start with # are passed over.
pub fn run(first: &str) -> Result<String, String> {
    let mut text = String::new();
    let read = std::io::stdin().read_to_string(&mut text);
    read.map_err(|error| format!("standard input: {error}"))?;
    let first = hex(first).map_err(|error| format!("FIRST: {error}"))?;
    let mut call = Call {
        base: first,
        memory: vec![0; 513 * PAGE_SIZE as usize],
        vpns: Vec::new(),
        ppns: Vec::new(),
        bits: Vec::new(),
        first,
        frames: 513,
    };
    for (i, line) in text.lines().enumerate() {
        let line = line.trim();
        if !line.is_empty() && !line.starts_with('#') {
            add(&mut call, line).map_err(|error| format!("line {}: {error}", i + 1))?;
        }
    }
    match port::write(&mut call) {
        Answer::Refused(number) => Err(format!("refused {number}: {}", reason(number))),
        Answer::Written { ptbr, used } => Ok(shown(&call, ptbr, used)),
    }
}

fn add(call: &mut Call, line: &str) -> Result<(), String> {
    let words: Vec<&str> = line.split_whitespace().collect();
    let [vpn, ppn, letters] = words[..] else {
        return Err(format!(
            "a virtual page, a physical page and letters are wanted: {line}"
        ));
    };
    call.vpns.push(hex(vpn)?);
    call.ppns.push(hex(ppn)?);
    call.bits.push(bits(letters)?);
    Ok(())
}

fn hex(word: &str) -> Result<u32, String> {
    let digits = word.trim_start_matches("0x");
    u32::from_str_radix(digits, 16).map_err(|error| format!("{word}: {error}"))
}

fn bits(letters: &str) -> Result<u8, String> {
    let mut bits = 0;
    for letter in letters.chars() {
        bits |= match letter.to_ascii_uppercase() {
            'R' => 2,
            'W' => 4,
            'X' => 8,
            'U' => 16,
            other => return Err(format!("no letter of R, W, X, U: {other}")),
        };
    }
    Ok(bits)
}

fn reason(number: u32) -> &'static str {
    match number {
        2 => "the frames pass 0xFFFF0000, or FIRST is no multiple of 4,096",
        9 => "over 512 mappings, out of order, or a page twice",
        10 => "a leaf that a walk would not accept, or a page at or above 0xFFFF0000",
        11 => "FIRST is no multiple of 4,096, or a frame lies outside the map",
        _ => "too few frames",
    }
}

/// Each word that is not 0, frame by frame.
fn shown(call: &Call, ptbr: u32, used: u32) -> String {
    let mut text = format!("PTBR {ptbr:08X}, {used} frames\n");
    for (i, word) in call.memory.chunks_exact(4).enumerate() {
        let word = u32::from_be_bytes([word[0], word[1], word[2], word[3]]);
        if word != 0 {
            text.push_str(&format!("{:08X}  {word:08X}\n", call.base + 4 * i as u32));
        }
    }
    text
}
