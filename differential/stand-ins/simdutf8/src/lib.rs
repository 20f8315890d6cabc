//! Stands in for the crate `simdutf8`: UTF-8 by one class for each of the 256 byte values, as document 01 asks.
//!
//! A text is UTF-8 exactly if it is a sequence of the byte sequences of table 3-7 of the Unicode standard.

pub mod basic {
    use crate::{is_ascii_word, step, CLASSES, START};

    /// Where a text ceases to be UTF-8: all bytes before `valid_up_to` are whole characters or the start of one.
    #[derive(Debug, Clone, Copy, PartialEq, Eq)]
    pub struct Utf8Error {
        pub valid_up_to: usize,
    }

    pub fn from_utf8(bytes: &[u8]) -> Result<&str, Utf8Error> {
        let mut state = START;
        let mut at = 0;
        while at < bytes.len() {
            // Most texts are ASCII: eight such bytes leave the state as it is.
            if state == START && is_ascii_word(&bytes[at..]) {
                at += 8;
                continue;
            }
            let Some(next) = step(state, CLASSES[bytes[at] as usize]) else {
                return Err(Utf8Error { valid_up_to: at });
            };
            state = next;
            at += 1;
        }
        if state != START {
            return Err(Utf8Error { valid_up_to: at });
        }
        // SAFETY: each step followed table 3-7, and the last character is whole.
        Ok(unsafe { std::str::from_utf8_unchecked(bytes) })
    }
}

/// What may follow: a new character, or so many continuation bytes, the first of them perhaps from a part of 80..bf only.
type State = u8;
const START: State = 0;
const ONE: State = 1;
const TWO: State = 2;
const THREE: State = 3;
const AFTER_E0: State = 4;
const AFTER_ED: State = 5;
const AFTER_F0: State = 6;
const AFTER_F4: State = 7;

/// The classes of bytes: bytes of one class lead from each state to the same state.
type Class = u8;
const PLAIN: Class = 0; // 00..7f
const LOW: Class = 1; // 80..8f
const MIDDLE: Class = 2; // 90..9f
const HIGH: Class = 3; // a0..bf
const LEAD_2: Class = 4; // c2..df
const LEAD_E0: Class = 5; // e0
const LEAD_3: Class = 6; // e1..ec, ee, ef
const LEAD_ED: Class = 7; // ed
const LEAD_F0: Class = 8; // f0
const LEAD_4: Class = 9; // f1..f3
const LEAD_F4: Class = 10; // f4
const NEVER: Class = 11; // c0, c1, f5..ff

static CLASSES: [Class; 256] = classes();

const fn classes() -> [Class; 256] {
    let mut table = [NEVER; 256];
    let mut byte = 0;
    while byte < 256 {
        table[byte] = class_of(byte as u8);
        byte += 1;
    }
    table
}

const fn class_of(byte: u8) -> Class {
    match byte {
        0x00..=0x7f => PLAIN,
        0x80..=0x8f => LOW,
        0x90..=0x9f => MIDDLE,
        0xa0..=0xbf => HIGH,
        0xc2..=0xdf => LEAD_2,
        0xe0 => LEAD_E0,
        0xe1..=0xec | 0xee..=0xef => LEAD_3,
        0xed => LEAD_ED,
        0xf0 => LEAD_F0,
        0xf1..=0xf3 => LEAD_4,
        0xf4 => LEAD_F4,
        _ => NEVER,
    }
}

/// The state after a byte of the class, if such a byte may stand there.
#[inline]
fn step(state: State, class: Class) -> Option<State> {
    match (state, class) {
        (START, PLAIN) => Some(START),
        (START, LEAD_2) => Some(ONE),
        (START, LEAD_E0) => Some(AFTER_E0),
        (START, LEAD_3) => Some(TWO),
        (START, LEAD_ED) => Some(AFTER_ED),
        (START, LEAD_F0) => Some(AFTER_F0),
        (START, LEAD_4) => Some(THREE),
        (START, LEAD_F4) => Some(AFTER_F4),
        (ONE, LOW | MIDDLE | HIGH) => Some(START),
        (TWO, LOW | MIDDLE | HIGH) => Some(ONE),
        (THREE, LOW | MIDDLE | HIGH) => Some(TWO),
        (AFTER_E0, HIGH) => Some(ONE),
        (AFTER_ED, LOW | MIDDLE) => Some(ONE),
        (AFTER_F0, MIDDLE | HIGH) => Some(TWO),
        (AFTER_F4, LOW) => Some(TWO),
        _ => None,
    }
}

#[inline]
fn is_ascii_word(bytes: &[u8]) -> bool {
    match bytes.first_chunk::<8>() {
        Some(word) => u64::from_ne_bytes(*word) & 0x8080_8080_8080_8080 == 0,
        None => false,
    }
}
