//! The types of usvg that the filter files name, with the same accessors.
//! Nothing is validated here: docs/LAW.md's ranges are tested elsewhere.

pub mod filter;
mod ulps;

pub use ulps::{ApproxEqUlps, ApproxZeroUlps};

/// usvg's wrapper of a number that it validated; here it only carries one.
macro_rules! number {
    ($name:ident) => {
        #[derive(Clone, Copy, Debug, PartialEq)]
        pub struct $name(f32);

        impl $name {
            pub fn new(n: f32) -> Self {
                $name(n)
            }

            pub fn get(&self) -> f32 {
                self.0
            }
        }
    };
}

number!(PositiveF32);
number!(NonZeroF32);

/// An 8-bit RGB color.
#[derive(Clone, Copy, Debug, PartialEq, Eq)]
pub struct Color {
    pub red: u8,
    pub green: u8,
    pub blue: u8,
}

impl Color {
    pub fn new_rgb(red: u8, green: u8, blue: u8) -> Color {
        Color { red, green, blue }
    }

    pub fn black() -> Color {
        Color::new_rgb(0, 0, 0)
    }
}
