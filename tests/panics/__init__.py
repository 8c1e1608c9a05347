"""Parts of search: where the Rust's step counter panics and the call is accepted."""
