//! A narrow frame as a wide one.

use crate::hex;

/// The wide line of a narrow frame; `None` of a line that is no narrow frame.
///
/// Each number gets a high byte, which is 0; so does the mark, whose FF becomes 255 and not FFFF.
/// A narrow list has at most 255 tokens, so the place 255 is past every one of them, and means no
/// mark in both.
pub fn widened(line: &[u8]) -> Option<Vec<u8>> {
    let bytes = hex::decode(line).ok()?;
    let length = *bytes.first()? as usize;
    let text = bytes.get(1..1 + length)?;
    let count = *bytes.get(1 + length)? as usize;
    let rest = &bytes[2 + length..];
    if rest.len() != 4 * count + 2 {
        return None;
    }
    let mut wide = vec![length as u8, 0];
    wide.extend(text);
    wide.extend([count as u8, 0]);
    for token in rest[..4 * count].chunks_exact(4) {
        wide.extend([token[0], token[1], token[2], 0, token[3], 0]);
    }
    wide.extend([rest[4 * count], 0, rest[4 * count + 1], 0]);
    let mut out = vec![b'w'];
    hex::push(&mut out, &wide);
    Some(out)
}

#[cfg(test)]
mod tests {
    use super::*;

    #[test]
    fn the_sample_becomes_wide() {
        let narrow = b"053428613029040200000107000102000002040800040500ff";
        let wide = b"w0500342861302904000200000001000700010002000000020004000800040005000000ff00";
        assert_eq!(widened(narrow), Some(wide.to_vec()));
        assert_eq!(widened(b"000000ff"), Some(b"w000000000000ff00".to_vec()));
    }

    #[test]
    fn what_is_no_narrow_frame() {
        for line in [
            &b""[..],
            b"w000000000000ff00",
            b"0000ff",
            b"000000ff00",
            b"0x",
        ] {
            assert_eq!(widened(line), None);
        }
    }
}
