//! An independent implementation of the vault, written from the documents
//! alone, to be compared with the verified one.

pub mod code;
pub mod fields;
pub mod script;
pub mod shelf;
pub mod vault;

pub use script::rounds;
