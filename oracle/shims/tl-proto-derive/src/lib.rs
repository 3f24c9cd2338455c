//! Derives that do nothing: the oracle reads no TL bytes.

use proc_macro::TokenStream;

#[proc_macro_derive(TlRead, attributes(tl))]
pub fn tl_read(_item: TokenStream) -> TokenStream {
    TokenStream::new()
}

#[proc_macro_derive(TlWrite, attributes(tl))]
pub fn tl_write(_item: TokenStream) -> TokenStream {
    TokenStream::new()
}
