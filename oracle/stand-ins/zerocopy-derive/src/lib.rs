//! The derives of the zerocopy stand-in, for structs without parameters.
use proc_macro::{TokenStream, TokenTree};

/// The name that follows the word `struct`.
fn struct_name(item: TokenStream) -> String {
    let mut words = item.into_iter().filter_map(|tree| match tree {
        TokenTree::Ident(word) => Some(word.to_string()),
        _ => None,
    });
    words.find(|word| word == "struct").expect("a struct");
    words.next().expect("the struct's name")
}

fn marked(item: TokenStream, with: &str) -> TokenStream {
    format!("unsafe impl ::zerocopy::{with} for {} {{}}", struct_name(item)).parse().expect("an impl")
}

#[proc_macro_derive(FromBytes)]
pub fn from_bytes(item: TokenStream) -> TokenStream {
    marked(item, "FromBytes")
}

#[proc_macro_derive(IntoBytes)]
pub fn into_bytes(item: TokenStream) -> TokenStream {
    marked(item, "IntoBytes")
}

#[proc_macro_derive(KnownLayout)]
pub fn known_layout(item: TokenStream) -> TokenStream {
    marked(item, "KnownLayout")
}

#[proc_macro_derive(Immutable)]
pub fn immutable(item: TokenStream) -> TokenStream {
    marked(item, "Immutable")
}
