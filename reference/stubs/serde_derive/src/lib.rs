//! STUB for the derive macro of serde.
//!
//! The s68k types carry `#[derive(Serialize)]` for the editor's JavaScript side.
//! `parse_operand` serialises nothing, so the derive writes no code.

use proc_macro::TokenStream;

/// Accepts `#[derive(Serialize)]` and its `#[serde(...)]` attributes, and writes nothing.
#[proc_macro_derive(Serialize, attributes(serde))]
pub fn derive_serialize(_item: TokenStream) -> TokenStream {
    TokenStream::new()
}
