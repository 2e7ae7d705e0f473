//! Derives `Error`, a `Display` that shows the value, and `From` for a field marked `#[from]`. The texts of `#[error(..)]` are not
//! used: messages are not compared.
use proc_macro::{Delimiter, TokenStream, TokenTree};

#[proc_macro_derive(Error, attributes(error, from))]
pub fn derive_error(item: TokenStream) -> TokenStream {
    let tokens: Vec<TokenTree> = item.into_iter().collect();
    let name = name_of(&tokens);
    let mut out = format!(
        "impl std::fmt::Display for {name} {{
            fn fmt(&self, f: &mut std::fmt::Formatter<'_>) -> std::fmt::Result {{ write!(f, \"{{self:?}}\") }}
        }}
        impl std::error::Error for {name} {{}}"
    );
    if let Some(TokenTree::Group(body)) = tokens.last() {
        for (variant, source) in sources(body.stream()) {
            out.push_str(&format!(
                "impl From<{source}> for {name} {{ fn from(source: {source}) -> Self {{ {name}::{variant}(source) }} }}"
            ));
        }
    }
    out.parse().expect("the derived text is Rust")
}

/// The name after `enum` or `struct`.
fn name_of(tokens: &[TokenTree]) -> String {
    let at =
        tokens.iter().position(|t| matches!(t.to_string().as_str(), "enum" | "struct")).expect("an enum or a struct");
    tokens[at + 1].to_string()
}

/// Each variant of one unnamed field marked `#[from]`, with that field's type.
fn sources(body: TokenStream) -> Vec<(String, String)> {
    let mut found = Vec::new();
    let mut variant = String::new();
    for token in body {
        match token {
            TokenTree::Ident(i) => variant = i.to_string(),
            TokenTree::Group(g) if g.delimiter() == Delimiter::Parenthesis => {
                let inner: Vec<TokenTree> = g.stream().into_iter().collect();
                if inner.len() > 2 && inner[1].to_string().contains("from") {
                    let source: TokenStream = inner[2..].iter().cloned().collect();
                    found.push((variant.clone(), source.to_string()));
                }
            }
            _ => {}
        }
    }
    found
}
