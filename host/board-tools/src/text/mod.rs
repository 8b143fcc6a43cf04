//! Readable tapes: text to tape and tape to text.

pub mod assemble;
pub mod list;
