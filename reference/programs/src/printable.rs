//! Any bytes as text that can be printed.

/// The bytes 20 to 7E hexadecimal as they are, every other one as `\x` and two digits.
pub fn printable(bytes: &[u8]) -> String {
    let mut out = String::with_capacity(bytes.len());
    for byte in bytes {
        match byte {
            0x20..=0x7e => out.push(*byte as char),
            _ => out.push_str(&format!("\\x{byte:02x}")),
        }
    }
    out
}

#[cfg(test)]
mod tests {
    use super::*;

    #[test]
    fn any_bytes_can_be_printed() {
        assert_eq!(printable(b"'a\\\n\xff"), "'a\\\\x0a\\xff");
    }
}
