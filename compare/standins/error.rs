//! Stand-in for the module of this name, which is not among the files given: the codes that the other files name, and nothing else.

/// Why a call was refused.
#[derive(Debug, Clone, Copy, PartialEq, Eq)]
pub enum Error {
    /// An argument that the call can't take.
    Argument,
    /// No byte free, and no sink.
    BufferFull,
    /// A message that no continuation makes valid.
    InvalidMsg,
    /// A limit of generated code.
    LimitExceeded,
}

/// The result of a call that may be refused.
pub type Result<T> = core::result::Result<T, Error>;
