//! Stands in for thiserror: the derive writes nothing and takes the `error` attribute.
use proc_macro::TokenStream;

#[proc_macro_derive(Error, attributes(error, from, source))]
pub fn error(_: TokenStream) -> TokenStream {
    TokenStream::new()
}
