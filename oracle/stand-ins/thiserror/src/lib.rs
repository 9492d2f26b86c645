//! Stand-in for thiserror's derive. Errors are told apart by their variant, and message texts stay behind, so it makes nothing.
use proc_macro::TokenStream;

#[proc_macro_derive(Error, attributes(error))]
pub fn error(_item: TokenStream) -> TokenStream {
    TokenStream::new()
}
