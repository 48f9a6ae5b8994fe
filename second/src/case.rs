//! A return to be tried, good or not.

/// An input and a short word on how it was made.
pub struct Case {
    pub how: String,
    pub bytes: Vec<u8>,
}
