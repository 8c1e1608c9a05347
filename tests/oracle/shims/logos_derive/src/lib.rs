//! Shim of logos' derive (hand-written): collects the `#[token]` and `#[regex]` attributes with their callbacks, in
//! order, and hands the patterns as they are written in lexer.rs to the automaton of the logos shim.
use proc_macro::{Group, TokenStream, TokenTree};

/// An attribute of a variant: literal or not, its pattern, its callback.
type Attribute = (bool, String, Option<String>);

fn trees(ts: TokenStream) -> Vec<TokenTree> {
    ts.into_iter().collect()
}

fn group(t: &TokenTree) -> Vec<TokenTree> {
    match t {
        TokenTree::Group(g) => trees(g.stream()),
        _ => panic!("a group was expected: {t}"),
    }
}

/// X of `#[logos(error = X)]`, which stands before the enum.
fn error_type(before: &[TokenTree]) -> String {
    let groups = before.iter().filter(|t| matches!(t, TokenTree::Group(_)));
    let logos = groups.map(group).find(|g| g[0].to_string() == "logos");
    logos.map_or("()".into(), |g| group(&g[1])[2].to_string())
}

/// `token("..")` or `regex("..", callback = f)`; none for any other attribute.
fn attribute(g: &Group) -> Option<Attribute> {
    let words = trees(g.stream());
    let name = words[0].to_string();
    if name != "token" && name != "regex" {
        return None;
    }
    let inner = group(&words[1]);
    let callback = (inner.len() > 2).then(|| {
        assert_eq!(inner[2].to_string(), "callback");
        inner[4].to_string()
    });
    Some((name == "token", inner[0].to_string(), callback))
}

fn rule(path: &str, (literal, pattern, callback): Attribute) -> String {
    let action = match callback {
        Some(f) => format!("|lex| {f}(lex).map(|()| {path})"),
        None => format!("|_| Ok({path})"),
    };
    format!("::logos::Rule {{ literal: {literal}, pattern: {pattern}, action: {action} }},")
}

#[proc_macro_derive(Logos, attributes(logos, token, regex))]
pub fn logos(ts: TokenStream) -> TokenStream {
    let all = trees(ts);
    let at = all.iter().position(|t| t.to_string() == "enum").unwrap();
    let (name, error) = (all[at + 1].to_string(), error_type(&all[..at]));
    let (mut rules, mut variants, mut attributes) = (String::new(), String::new(), vec![]);
    for t in group(&all[at + 2]) {
        match t {
            TokenTree::Group(g) => attributes.extend(attribute(&g)),
            TokenTree::Ident(i) => {
                let path = format!("{name}::{i}");
                rules.extend(attributes.drain(..).map(|a| rule(&path, a)));
                variants.push_str(&format!("{path},"))
            }
            _ => {}
        }
    }
    let code = format!(
        "impl ::logos::Logos for {name} {{
            type Error = {error};
            fn rules() -> &'static [::logos::Rule<Self>] {{
                static RULES: &[::logos::Rule<{name}>] = &[{rules}];
                RULES
            }}
            fn variants() -> &'static [Self] {{
                &[{variants}]
            }}
            fn dfa() -> &'static ::logos::Dfa {{
                static DFA: ::std::sync::OnceLock<::logos::Dfa> = ::std::sync::OnceLock::new();
                DFA.get_or_init(|| ::logos::Dfa::build(<{name} as ::logos::Logos>::rules()))
            }}
        }}"
    );
    code.parse().unwrap()
}
