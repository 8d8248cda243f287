//! rkyv's derives as names only: the oracle archives nothing, so they add no code.

use proc_macro::TokenStream;

#[proc_macro_derive(Archive, attributes(rkyv))]
pub fn archive(_: TokenStream) -> TokenStream {
    TokenStream::new()
}

#[proc_macro_derive(Serialize, attributes(rkyv))]
pub fn serialize(_: TokenStream) -> TokenStream {
    TokenStream::new()
}

#[proc_macro_derive(Deserialize, attributes(rkyv))]
pub fn deserialize(_: TokenStream) -> TokenStream {
    TokenStream::new()
}
