//! Stands in for the crate `approx`: the traits that the Rust's units implement for its tests. No energy is worked out
//! with them, so a body that were ever reached panics and computes nothing.

pub trait AbsDiffEq {
    type Epsilon;
    fn default_epsilon() -> Self::Epsilon;
    fn abs_diff_eq(&self, other: &Self, epsilon: Self::Epsilon) -> bool;
}

pub trait RelativeEq: AbsDiffEq {
    fn default_max_relative() -> Self::Epsilon;
    fn relative_eq(&self, other: &Self, epsilon: Self::Epsilon, max: Self::Epsilon) -> bool;
}

pub trait UlpsEq: AbsDiffEq {
    fn default_max_ulps() -> u32;
    fn ulps_eq(&self, other: &Self, epsilon: Self::Epsilon, max: u32) -> bool;
}

impl AbsDiffEq for f64 {
    type Epsilon = f64;
    fn default_epsilon() -> f64 {
        unimplemented!()
    }
    fn abs_diff_eq(&self, _: &f64, _: f64) -> bool {
        unimplemented!()
    }
}

impl RelativeEq for f64 {
    fn default_max_relative() -> f64 {
        unimplemented!()
    }
    fn relative_eq(&self, _: &f64, _: f64, _: f64) -> bool {
        unimplemented!()
    }
}

impl UlpsEq for f64 {
    fn default_max_ulps() -> u32 {
        unimplemented!()
    }
    fn ulps_eq(&self, _: &f64, _: f64, _: u32) -> bool {
        unimplemented!()
    }
}
