//! Shim of displaydoc: `Display` of a fieldless enum from the first line of each variant's doc comment.
use proc_macro::{TokenStream, TokenTree};

#[proc_macro_derive(Display)]
pub fn display(ts: TokenStream) -> TokenStream {
    let all: Vec<TokenTree> = ts.into_iter().collect();
    let at = all.iter().position(|t| t.to_string() == "enum").unwrap();
    let name = all[at + 1].to_string();
    let TokenTree::Group(body) = &all[at + 2] else { panic!("an enum has a body") };
    let (mut arms, mut doc) = (String::new(), None);
    for t in body.stream() {
        match t {
            TokenTree::Group(attribute) => {
                let words: Vec<TokenTree> = attribute.stream().into_iter().collect();
                if words[0].to_string() == "doc" && doc.is_none() {
                    doc = Some(words[2].to_string())
                }
            }
            TokenTree::Ident(variant) => {
                let text = doc.take().unwrap();
                arms.push_str(&format!("{name}::{variant} => f.write_str(({text}).trim()),"))
            }
            _ => {}
        }
    }
    let code = format!(
        "impl ::std::fmt::Display for {name} {{
            fn fmt(&self, f: &mut ::std::fmt::Formatter<'_>) -> ::std::fmt::Result {{
                match self {{ {arms} }}
            }}
        }}"
    );
    code.parse().unwrap()
}
