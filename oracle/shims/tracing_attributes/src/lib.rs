//! The attribute `instrument`, handing the function back as it stands.

use proc_macro::TokenStream;

/// The function unchanged; the fields named in the attribute are not worked out.
#[proc_macro_attribute]
pub fn instrument(_fields: TokenStream, function: TokenStream) -> TokenStream {
    function
}
