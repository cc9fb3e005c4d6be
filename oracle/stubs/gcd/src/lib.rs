//! Stand-in: the trait that parser/src/infer.rs names. cfg.rs imports that file, and no question
//! reaches it, since each one gives the codel width.
pub trait Gcd {
    fn gcd(self, other: Self) -> Self;
}

impl Gcd for u32 {
    fn gcd(self, other: u32) -> u32 {
        if other == 0 {
            self
        } else {
            other.gcd(self % other)
        }
    }
}
