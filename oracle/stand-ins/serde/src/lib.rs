//! Stands in for serde, whose derives the published exchange and quote types name; nothing is serialised here.

use proc_macro::TokenStream;

#[proc_macro_derive(Serialize)]
pub fn serialize(_item: TokenStream) -> TokenStream {
    TokenStream::new()
}

#[proc_macro_derive(Deserialize)]
pub fn deserialize(_item: TokenStream) -> TokenStream {
    TokenStream::new()
}
