//! Stands in for `crate::models`: the three of its files that are asked.

pub mod sdc2d;
pub mod sdc2d_thermo;
pub mod sdc_common;
