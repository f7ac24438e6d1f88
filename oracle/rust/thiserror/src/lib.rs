// Stand-in: the derive takes the attributes and emits nothing; no answer depends on it.
use proc_macro::TokenStream;

#[proc_macro_derive(Error, attributes(error, from, source))]
pub fn error(_: TokenStream) -> TokenStream {
    TokenStream::new()
}
