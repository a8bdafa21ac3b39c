//! The proved services on trial: their answers beside those of `sheet` and of
//! the crate's own source, their time and their stack.

pub mod compare;
pub mod compilers;
pub mod features;
pub mod formed;
pub mod sheets;
pub mod stack;
