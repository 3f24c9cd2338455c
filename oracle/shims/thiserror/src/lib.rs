//! Stands in for thiserror, whose version in Debian can't read the source's messages: an error shows
//! itself as its `Debug` does. Messages are for logs only; no verdict depends on them.

use proc_macro::{TokenStream, TokenTree};

#[proc_macro_derive(Error, attributes(error))]
pub fn error(item: TokenStream) -> TokenStream {
    let name = name_of(item);
    let code = format!(
        "impl std::fmt::Display for {name} {{
            fn fmt(&self, f: &mut std::fmt::Formatter<'_>) -> std::fmt::Result {{
                std::fmt::Debug::fmt(self, f)
            }}
        }}
        impl std::error::Error for {name} {{}}"
    );
    code.parse().unwrap()
}

/// The word after `struct` or `enum`.
fn name_of(item: TokenStream) -> String {
    let mut words = item.into_iter().filter_map(|token| match token {
        TokenTree::Ident(word) => Some(word.to_string()),
        _ => None,
    });
    words.find(|word| word == "struct" || word == "enum").unwrap();
    words.next().unwrap()
}
