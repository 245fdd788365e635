//! The two derives of serde, adding nothing: every type has the traits already (see the `serde` shim).

use proc_macro::TokenStream;

/// Adds nothing to the type.
#[proc_macro_derive(Serialize)]
pub fn serialize(_item: TokenStream) -> TokenStream {
    TokenStream::new()
}

/// Adds nothing to the type.
#[proc_macro_derive(Deserialize)]
pub fn deserialize(_item: TokenStream) -> TokenStream {
    TokenStream::new()
}
