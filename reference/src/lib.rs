//! A plain second implementation of the network K-function counts.
//!
//! It is written from the requirements and proves nothing. It is here to compare
//! the proved library with, and, with the count augmentation of `tuned`, to time
//! it against.

#![forbid(unsafe_code)]

pub mod calls;
pub mod counts;
pub mod distance;
pub mod lists;
pub mod model;
pub mod program;
pub mod random;
pub mod table;
pub mod text;
pub mod tuned;
