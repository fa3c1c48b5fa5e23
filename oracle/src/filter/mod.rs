//! resvg 0.49.0's filter folder: nine files unchanged, two of them once more with a value lent and one that tells its
//! states, and the items of its mod.rs that they use.

#![allow(dead_code, clippy::collapsible_if)]

use rgb::RGBA8;

pub mod lent;

#[path = "../../resvg/filter/color_matrix.rs"]
pub mod color_matrix;
#[path = "../../resvg/filter/component_transfer.rs"]
pub mod component_transfer;
#[path = "../../resvg/filter/composite.rs"]
pub mod composite;
#[path = "../../resvg/filter/convolve_matrix.rs"]
pub mod convolve_matrix;
#[path = "../../resvg/filter/displacement_map.rs"]
pub mod displacement_map;
#[path = "../../resvg/filter/iir_blur.rs"]
pub mod iir_blur;
#[path = "../../resvg/filter/lighting.rs"]
pub mod lighting;
#[path = "../../resvg/filter/morphology.rs"]
pub mod morphology;
#[path = "../../resvg/filter/turbulence.rs"]
#[allow(clippy::too_many_arguments)]
pub mod turbulence;

/// color_matrix.rs with HueRotate's cosine and sine lent; build.rs makes it.
#[allow(unused_variables)]
pub mod color_matrix_lent {
    include!(concat!(env!("OUT_DIR"), "/color_matrix_lent.rs"));
}

/// lighting.rs with the direction of a distant light lent; build.rs makes it.
#[allow(unused_variables)]
pub mod lighting_lent {
    include!(concat!(env!("OUT_DIR"), "/lighting_lent.rs"));
}

/// turbulence.rs, which tells each state that it draws the next one from; build.rs makes it.
#[allow(clippy::needless_range_loop, clippy::too_many_arguments)]
pub mod turbulence_lent {
    include!(concat!(env!("OUT_DIR"), "/turbulence_lent.rs"));
}

// The items below are mod.rs's, word for word.

/// An image reference.
///
/// Image pixels should be stored in RGBA order.
///
/// Some filters will require premultiplied channels, some not.
/// See specific filter documentation for details.
#[derive(Clone, Copy)]
pub struct ImageRef<'a> {
    data: &'a [RGBA8],
    width: u32,
    height: u32,
}

impl<'a> ImageRef<'a> {
    /// Creates a new image reference.
    ///
    /// Doesn't clone the provided data.
    #[inline]
    pub fn new(width: u32, height: u32, data: &'a [RGBA8]) -> Self {
        ImageRef {
            data,
            width,
            height,
        }
    }

    #[inline]
    fn alpha_at(&self, x: u32, y: u32) -> i16 {
        self.data[(self.width * y + x) as usize].a as i16
    }
}

/// A mutable `ImageRef` variant.
pub struct ImageRefMut<'a> {
    data: &'a mut [RGBA8],
    width: u32,
    height: u32,
}

impl<'a> ImageRefMut<'a> {
    /// Creates a new mutable image reference.
    ///
    /// Doesn't clone the provided data.
    #[inline]
    pub fn new(width: u32, height: u32, data: &'a mut [RGBA8]) -> Self {
        ImageRefMut {
            data,
            width,
            height,
        }
    }

    #[inline]
    fn pixel_at(&self, x: u32, y: u32) -> RGBA8 {
        self.data[(self.width * y + x) as usize]
    }

    #[inline]
    fn pixel_at_mut(&mut self, x: u32, y: u32) -> &mut RGBA8 {
        &mut self.data[(self.width * y + x) as usize]
    }
}

/// Multiplies provided pixels alpha.
fn multiply_alpha(data: &mut [RGBA8]) {
    for p in data {
        let a = p.a as f32 / 255.0;
        p.b = (p.b as f32 * a + 0.5) as u8;
        p.g = (p.g as f32 * a + 0.5) as u8;
        p.r = (p.r as f32 * a + 0.5) as u8;
    }
}

/// Demultiplies provided pixels alpha.
fn demultiply_alpha(data: &mut [RGBA8]) {
    for p in data {
        let a = p.a as f32 / 255.0;
        p.b = (p.b as f32 / a + 0.5) as u8;
        p.g = (p.g as f32 / a + 0.5) as u8;
        p.r = (p.r as f32 / a + 0.5) as u8;
    }
}

// TODO: https://github.com/rust-lang/rust/issues/44095
#[inline]
fn f32_bound(min: f32, val: f32, max: f32) -> f32 {
    debug_assert!(min.is_finite());
    debug_assert!(max.is_finite());

    if val > max {
        max
    } else if val >= min {
        val
    } else {
        // Catches `val < min` as well as a NaN `val`.
        min
    }
}
