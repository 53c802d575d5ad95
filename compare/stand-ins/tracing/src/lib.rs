//! Stands in for the tracing crate. Nothing is traced.

use proc_macro::TokenStream;

/// Leaves the function as it is.
#[proc_macro_attribute]
pub fn instrument(_options: TokenStream, function: TokenStream) -> TokenStream {
    function
}

/// Becomes nothing.
#[proc_macro]
pub fn trace(_message: TokenStream) -> TokenStream {
    TokenStream::new()
}

/// Becomes a span that only runs what is called in its scope.
#[proc_macro]
pub fn trace_span(_name: TokenStream) -> TokenStream {
    "{
        struct Span;
        impl Span {
            fn in_scope<T>(self, run: impl FnOnce() -> T) -> T { run() }
        }
        Span
    }"
    .parse()
    .unwrap()
}
