//! What the original imports from its crate of this name.

/// Its cases as far as the coded types give them.
#[derive(Debug)]
pub enum DiagServiceError {
    InvalidDatabase(String),
    BadPayload(String),
    NotEnoughData { expected: usize, actual: usize },
}

/// `extract_bits` and `set_bit_checked`, as they stand in the original.
pub mod util {
    use crate::DiagServiceError;
    include!(concat!(env!("OUT_DIR"), "/util.rs"));
}
