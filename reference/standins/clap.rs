//! A derive that derives nothing: the port has no command line of the source.

use proc_macro::TokenStream;

#[proc_macro_derive(ValueEnum)]
pub fn value_enum(_: TokenStream) -> TokenStream {
    TokenStream::new()
}
