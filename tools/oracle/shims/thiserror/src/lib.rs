//! Stand-in for thiserror: error.rs has one enum, named Error. Display gives the variant's name.
use proc_macro::TokenStream;
#[proc_macro_derive(Error, attributes(error))]
pub fn derive(_: TokenStream) -> TokenStream {
    "impl core::fmt::Display for Error { fn fmt(&self, f: &mut core::fmt::Formatter<'_>) -> core::fmt::Result { core::fmt::Debug::fmt(self, f) } }
     impl core::error::Error for Error {}"
        .parse()
        .unwrap()
}
