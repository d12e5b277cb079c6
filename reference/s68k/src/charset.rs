//! STUB for s68k's `charset`, the Windows-1252 table.
//!
//! `parse_operand` reaches it through `string_literal_bytes`. A line here holds the bytes 20 to
//! 7E hexadecimal only (refusal 2), and in Windows-1252 each of these stands for itself.

/// The byte of `character`, `None` for one outside ASCII.
pub fn byte(character: char) -> Option<u8> {
    u8::try_from(character).ok().filter(u8::is_ascii)
}
