//! Stands in for `crate::canvas`: a bay's row and column, under the two names that the Rust has for it.

#[derive(Debug, Clone, Copy, PartialEq, Eq, Hash)]
pub struct PointSafe2(pub (usize, usize));

#[derive(Debug, Clone, Copy, PartialEq, Eq, Hash)]
pub struct PointSafeHere(pub (usize, usize));
