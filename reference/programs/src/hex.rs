//! Lower-case hexadecimal, the spelling of frames and answers.

use crate::printable::printable;
use std::fmt;

/// Why a text is no sequence of bytes in lower-case hexadecimal.
#[derive(Debug, Clone, Copy, PartialEq, Eq)]
pub enum HexFault {
    /// Another character than `0` to `9` and `a` to `f`, at this offset.
    Character(usize, u8),
    /// The last byte has one digit only.
    OddCount(usize),
}

impl fmt::Display for HexFault {
    fn fmt(&self, out: &mut fmt::Formatter) -> fmt::Result {
        match self {
            HexFault::Character(at, byte) => {
                let column = at + 1;
                let shown = printable(&[*byte]);
                write!(
                    out,
                    "column {column}: `{shown}` is no lower-case hexadecimal digit"
                )
            }
            HexFault::OddCount(count) => write!(out, "{count} digits, an odd number"),
        }
    }
}

/// The value of each lower-case digit; 255 for every other byte.
const VALUES: [u8; 256] = digit_values();
const DIGITS: &[u8; 16] = b"0123456789abcdef";

const fn digit_values() -> [u8; 256] {
    let mut values = [255; 256];
    let mut value = 0;
    while value < 16 {
        values[DIGITS[value] as usize] = value as u8;
        value += 1;
    }
    values
}

/// Puts the bytes that `text` spells into `bytes`, which is emptied first.
pub fn decode_into(text: &[u8], bytes: &mut Vec<u8>) -> Result<(), HexFault> {
    bytes.clear();
    for pair in text.chunks_exact(2) {
        let (high, low) = (VALUES[pair[0] as usize], VALUES[pair[1] as usize]);
        if high | low > 15 {
            return Err(first_fault(text));
        }
        bytes.push(high << 4 | low);
    }
    if text.len() % 2 == 1 {
        return Err(first_fault(text));
    }
    Ok(())
}

/// The fault of a text that has one: a wrong character if there is any, else the odd count.
fn first_fault(text: &[u8]) -> HexFault {
    let wrong = text.iter().position(|byte| VALUES[*byte as usize] > 15);
    match wrong {
        Some(at) => HexFault::Character(at, text[at]),
        None => HexFault::OddCount(text.len()),
    }
}

/// The bytes that `text` spells.
pub fn decode(text: &[u8]) -> Result<Vec<u8>, HexFault> {
    let mut bytes = Vec::with_capacity(text.len() / 2);
    decode_into(text, &mut bytes)?;
    Ok(bytes)
}

/// Appends the digits of `bytes` to `out`.
pub fn push(out: &mut Vec<u8>, bytes: &[u8]) {
    for byte in bytes {
        out.push(DIGITS[(byte >> 4) as usize]);
        out.push(DIGITS[(byte & 15) as usize]);
    }
}

/// The digits of `bytes`.
pub fn encode(bytes: &[u8]) -> Vec<u8> {
    let mut out = Vec::with_capacity(2 * bytes.len());
    push(&mut out, bytes);
    out
}

#[cfg(test)]
mod tests {
    use super::*;

    #[test]
    fn digits_there_and_back() {
        let bytes: Vec<u8> = (0..=255).collect();
        assert_eq!(decode(&encode(&bytes)), Ok(bytes));
    }

    #[test]
    fn a_fault_has_its_place() {
        assert_eq!(decode(b"0A"), Err(HexFault::Character(1, b'A')));
        assert_eq!(decode(b"00 "), Err(HexFault::Character(2, b' ')));
        assert_eq!(decode(b"000"), Err(HexFault::OddCount(3)));
        assert_eq!(decode(b""), Ok(vec![]));
    }
}
