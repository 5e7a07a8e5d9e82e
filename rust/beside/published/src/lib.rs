//! Includes a file of the published Rust in the module that asks for it, so that functions beside it
//! can look at private fields. `include!` cannot do this: the files open with inner attributes.

use proc_macro::{TokenStream, TokenTree};

/// The items of a file below the folder XIENGMADO_RUST, without its inner attributes.
#[proc_macro]
pub fn published(path: TokenStream) -> TokenStream {
    let path = path.to_string();
    let folder = std::env::var("XIENGMADO_RUST").expect("XIENGMADO_RUST is the folder");
    let file = format!("{folder}/{}", path.trim_matches('"'));
    let text = std::fs::read_to_string(&file).unwrap_or_else(|error| panic!("{file}: {error}"));
    let mut tokens: Vec<TokenTree> = text
        .parse::<TokenStream>()
        .unwrap_or_else(|error| panic!("{file}: {error}"))
        .into_iter()
        .collect();
    while is(&tokens, 0, "#") && is(&tokens, 1, "!") {
        tokens.drain(..3);
    }
    tokens.into_iter().collect()
}

fn is(tokens: &[TokenTree], at: usize, text: &str) -> bool {
    tokens
        .get(at)
        .is_some_and(|token| token.to_string() == text)
}
