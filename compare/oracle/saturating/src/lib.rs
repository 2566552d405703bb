// Stand-in for the crate of this name: the standard library has a type of the same shape.
pub use std::num::Saturating;
