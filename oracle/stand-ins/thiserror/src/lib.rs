//! Stand-in for `thiserror`: `Error`, `From` for each field marked `#[from]`, and a `Display` that prints the value as `Debug`
//! does. Left out: the messages in `#[error(..)]`; only the wording of a panic could show it.
pub use stand_in_derive::Error;
