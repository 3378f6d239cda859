//! Added to the copy of `units.rs` as its child `ask`, and so able to read what is private there.

pub fn r_val() -> f64 {
    super::R_VAL.0
}
