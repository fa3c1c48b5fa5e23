//! resvg's turbulence.rs, without stitching.

use crate::{Refusal, SheetMut, Straight, library};

/// A noise.
#[derive(Clone, Copy, Debug, PartialEq)]
pub struct Turbulence {
    /// 0 to 16.
    pub base_frequency_x: f64,
    /// 0 to 16.
    pub base_frequency_y: f64,
    /// At most 8.
    pub num_octaves: u32,
    /// Any.
    pub seed: i32,
    /// Fractal noise, which lies round the middle; otherwise turbulence.
    pub fractal_noise: bool,
}

/// Applies a turbulence filter; every byte of `dest` is written.
///
/// - `offset_x` and `offset_y` indicate filter region offset.
/// - `sx` and `sy` indicate canvas scale.
///
/// # Errors
///
/// [`Refusal::NotFinite`] and [`Refusal::Range`] of the numbers: offsets are -4,096 to 4,096, scales 1/16
/// to 16, and those of [`Turbulence`] as it has them.
///
/// ```
/// use nuprikhen::SheetMut;
/// use nuprikhen::turbulence::{self, Turbulence};
///
/// // No octave: fractal noise is the middle in every channel.
/// let noise = Turbulence {
///     base_frequency_x: 0.05,
///     base_frequency_y: 0.05,
///     num_octaves: 0,
///     seed: 7,
///     fractal_noise: true,
/// };
/// let mut bytes = [9; 4];
/// turbulence::apply(&noise, 0.0, 0.0, 1.0, 1.0, SheetMut::new(1, 1, &mut bytes)?)?;
/// assert_eq!(bytes, [128; 4]);
/// # Ok::<(), nuprikhen::Refusal>(())
/// ```
pub fn apply(
    fe: &Turbulence,
    offset_x: f64,
    offset_y: f64,
    sx: f64,
    sy: f64,
    dest: SheetMut<Straight>,
) -> Result<(), Refusal> {
    let (width, height, dest) = (dest.width(), dest.height(), dest.into_bytes());
    // SAFETY: the slice is borrowed for this call alone, with its own length.
    let answer = unsafe {
        library::nup_turbulence(
            width,
            height,
            offset_x,
            offset_y,
            sx,
            sy,
            fe.base_frequency_x,
            fe.base_frequency_y,
            fe.num_octaves,
            fe.seed,
            0,
            fe.fractal_noise as u8,
            dest.as_mut_ptr(),
            dest.len(),
        )
    };
    answer.told()
}
