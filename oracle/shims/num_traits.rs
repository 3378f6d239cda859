//! Stands in for the crate `num_traits`: the trait `Zero` alone. The units of the Rust implement it themselves;
//! here are the two plain types that its arrays start from.

pub mod identities {
    pub trait Zero: Sized {
        fn zero() -> Self;
        fn is_zero(&self) -> bool;
    }

    impl Zero for f64 {
        fn zero() -> Self {
            0.0
        }
        fn is_zero(&self) -> bool {
            *self == 0.0
        }
    }

    impl Zero for usize {
        fn zero() -> Self {
            0
        }
        fn is_zero(&self) -> bool {
            *self == 0
        }
    }
}

pub use identities::Zero;
