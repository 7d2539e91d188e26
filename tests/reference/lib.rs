//! A second implementation of the route book, written from docs/ alone and by other methods than the first.
//! The tests compare the two. `run` builds it and runs its own tests.

pub mod book;
pub mod brute;
pub mod flow;
pub mod host;
pub mod image;
pub mod orders;
pub mod pair;
pub mod random;
pub mod scale;
