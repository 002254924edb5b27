//! Stand-in for the crate of this name: the two constructors that the original's `error.rs` calls.

/// An error text.
#[derive(Debug)]
pub struct Error(pub String);

impl Error {
    /// An error of unsupported input.
    pub fn unsupported(message: impl Into<String>) -> Self {
        Error(message.into())
    }

    /// An error of invalid input.
    pub fn invalid(message: impl Into<String>) -> Self {
        Error(message.into())
    }
}
