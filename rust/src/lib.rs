//! resvg 0.49.0's filter primitives on lent sheets: a safe surface of Nuprikhen's proved static library.
//!
//! A sheet is exactly 4 x width x height bytes: r, g, b, a of each pixel, row by row. [`SheetRef`] and
//! [`SheetMut`] lend one with its size, and their type says whether its colour is [`Straight`] or
//! [`Premultiplied`] by alpha. Modules and functions have resvg's names. No function panics or keeps what it
//! is lent; none allocates but those of the module `recipe`, which runs several filters in a row, over four
//! sheets.
//!
//! A call tests first and writes afterwards: on a [`Refusal`] no lent byte has changed.
//!
//! ```
//! use nuprikhen::SheetMut;
//! use nuprikhen::morphology::{self, MorphologyOperator};
//!
//! // Three pixels in a row.
//! let mut bytes = [10, 10, 10, 10, 200, 200, 200, 200, 30, 30, 30, 30];
//! let mut scratch = [0; 12];
//! let src = SheetMut::new(3, 1, &mut bytes)?;
//! morphology::apply(MorphologyOperator::Dilate, 1.0, 0.0, src, &mut scratch)?;
//! assert_eq!(bytes, [200; 12]);
//! # Ok::<(), nuprikhen::Refusal>(())
//! ```
//!
//! # Features
//!
//! - `std` (default): `ColorMatrix::hue_rotate_degrees`, which needs the platform's sine and cosine; and
//!   `alloc`.
//! - `alloc`: the module `recipe`.
//!
//! Without them the package needs `core` alone.

#![no_std]

#[cfg(feature = "alloc")]
extern crate alloc;
#[cfg(any(feature = "std", test))]
extern crate std;

pub mod color_matrix;
pub mod component_transfer;
pub mod composite;
pub mod convolve_matrix;
pub mod displacement_map;
#[cfg(doctest)]
mod kinds;
mod library;
pub mod lighting;
pub mod morphology;
#[cfg(feature = "alloc")]
pub mod recipe;
mod refusal;
mod sheet;
pub mod turbulence;

pub use refusal::{Refusal, RefusedStep};
pub use sheet::{Premultiplied, SheetKind, SheetMut, SheetRef, Straight};

/// The longest side of a sheet.
pub const SIDE_LIMIT: u32 = 4096;

/// The README, whose blocks are tests.
#[cfg(all(doctest, feature = "std"))]
#[doc = include_str!("../README.md")]
struct Readme;
