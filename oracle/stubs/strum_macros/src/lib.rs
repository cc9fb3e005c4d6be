//! Stand-in: the derive that piet_core/src/instruction.rs names. It adds nothing, since no given
//! file iterates over the instructions.
use proc_macro::TokenStream;

#[proc_macro_derive(EnumIter)]
pub fn enum_iter(_: TokenStream) -> TokenStream {
    TokenStream::new()
}
