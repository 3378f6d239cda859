//! Stands in for the crate `rand`: one trait, which the Rust's rates implement. Nothing is drawn at random in what is
//! asked, so the body panics if it were ever reached.

pub mod distr {
    pub mod weighted {
        pub trait Weight: Sized {
            const ZERO: Self;
            fn checked_add_assign(&mut self, v: &Self) -> Result<(), ()>;
        }

        impl Weight for f64 {
            const ZERO: f64 = 0.0;
            fn checked_add_assign(&mut self, _: &f64) -> Result<(), ()> {
                unimplemented!()
            }
        }
    }
}
