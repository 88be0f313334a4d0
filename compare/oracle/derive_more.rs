//! Stand-in for the crate `derive_more`: its derive writes nothing.

extern crate proc_macro;
use proc_macro::TokenStream;

#[proc_macro_derive(From)]
pub fn from(_: TokenStream) -> TokenStream {
    TokenStream::new()
}
