//! Stands in for the attribute crate `maybe_async`. It assumes that the sync form of the crate returns the item with every `async` and every
//! `.await` taken out, and changes nothing else.
use proc_macro::{Group, TokenStream, TokenTree};

#[proc_macro_attribute]
pub fn maybe_async(_words: TokenStream, item: TokenStream) -> TokenStream {
    stripped(item)
}

fn stripped(item: TokenStream) -> TokenStream {
    let mut kept: Vec<TokenTree> = Vec::new();
    for token in item {
        match token {
            TokenTree::Ident(word) if word.to_string() == "async" => {}
            TokenTree::Ident(word) if word.to_string() == "await" => {
                kept.pop(); // the dot before it
            }
            TokenTree::Group(group) => {
                let mut inner = Group::new(group.delimiter(), stripped(group.stream()));
                inner.set_span(group.span());
                kept.push(inner.into());
            }
            other => kept.push(other),
        }
    }
    kept.into_iter().collect()
}
