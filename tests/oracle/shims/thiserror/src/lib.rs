//! Shim of thiserror: derive(Error) = an empty impl of std::error::Error.
use proc_macro::{TokenStream, TokenTree};
#[proc_macro_derive(Error)]
pub fn error(ts: TokenStream) -> TokenStream {
    let mut it = ts.into_iter();
    while let Some(t) = it.next() {
        if let TokenTree::Ident(i) = &t {
            if i.to_string() == "enum" {
                let n = it.next().unwrap();
                return format!("impl ::std::error::Error for {n} {{}}").parse().unwrap();
            }
        }
    }
    panic!("enum only")
}
