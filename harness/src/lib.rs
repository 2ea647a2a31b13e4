//! Heathdapple from outside: the papers' rules written a second time in plain Rust, to run beside the proved library.

#![forbid(unsafe_code)]

pub mod generate;
pub mod hashed;
pub mod random;
pub mod reference;
pub mod side;
