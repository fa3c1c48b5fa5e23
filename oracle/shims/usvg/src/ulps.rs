//! float_cmp's comparison by units in the last place, as usvg exports it.

/// Equal, or of one sign with patterns at most `ulps` apart.
pub trait ApproxEqUlps {
    fn approx_eq_ulps(&self, other: &Self, ulps: i32) -> bool;
}

/// `approx_eq_ulps` with zero.
pub trait ApproxZeroUlps {
    fn approx_zero_ulps(&self, ulps: i32) -> bool;
}

macro_rules! ulps {
    ($float:ty, $int:ty) => {
        impl ApproxEqUlps for $float {
            fn approx_eq_ulps(&self, other: &Self, ulps: i32) -> bool {
                // The two zeros are far apart in patterns.
                if self == other {
                    return true;
                }
                if self.is_sign_positive() != other.is_sign_positive() {
                    return false;
                }
                let (a, b) = (self.to_bits() as $int, other.to_bits() as $int);
                let apart = a.wrapping_sub(b);
                apart >= -(ulps as $int) && apart <= ulps as $int
            }
        }

        impl ApproxZeroUlps for $float {
            fn approx_zero_ulps(&self, ulps: i32) -> bool {
                self.approx_eq_ulps(&0.0, ulps)
            }
        }
    };
}

ulps!(f32, i32);
ulps!(f64, i64);
