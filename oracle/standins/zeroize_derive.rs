// Stands in for the derives of the crate zeroize: they derive nothing, so a session is not wiped when it is dropped.
extern crate proc_macro;

use proc_macro::TokenStream;

#[proc_macro_derive(Zeroize, attributes(zeroize))]
pub fn zeroize(_: TokenStream) -> TokenStream {
    TokenStream::new()
}

#[proc_macro_derive(ZeroizeOnDrop, attributes(zeroize))]
pub fn zeroize_on_drop(_: TokenStream) -> TokenStream {
    TokenStream::new()
}
