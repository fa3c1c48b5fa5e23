//! resvg's color_matrix.rs.

use crate::{Refusal, SheetMut, Straight, library};

/// What becomes of a pixel's channels.
#[derive(Clone, Copy, Debug, PartialEq)]
pub enum ColorMatrix<'a> {
    /// Four rows of five numbers, -65,536 to 65,536; the fifth column is added.
    ///
    /// ```compile_fail,E0308
    /// use nuprikhen::color_matrix::ColorMatrix;
    ///
    /// let short = ColorMatrix::Matrix(&[0.5; 19]);
    /// ```
    Matrix(&'a [f32; 20]),
    /// Saturation, -65,536 to 65,536, which counts as 0 below 0; alpha is kept.
    Saturate(f32),
    /// The hue turned by the angle of this cosine and sine; alpha is kept. The exact sum of their
    /// squares is within 1/1,024 of 1.
    HueRotate {
        /// The angle's cosine.
        cosine: f32,
        /// The angle's sine.
        sine: f32,
    },
    /// Colour 0, and the luminance as alpha.
    LuminanceToAlpha,
}

impl ColorMatrix<'_> {
    /// The hue turned by this angle.
    ///
    /// The cosine and the sine are those of the angle in radians, in `f32`, as resvg works them out. They
    /// come from the platform, so that the bytes made with them may differ between platforms;
    /// [`ColorMatrix::HueRotate`] takes a pair that is the same everywhere.
    ///
    /// ```
    /// use nuprikhen::color_matrix::ColorMatrix;
    ///
    /// let none = ColorMatrix::HueRotate { cosine: 1.0, sine: 0.0 };
    /// assert_eq!(ColorMatrix::hue_rotate_degrees(0.0), none);
    /// ```
    #[cfg(feature = "std")]
    #[must_use]
    pub fn hue_rotate_degrees(degrees: f32) -> Self {
        let angle = degrees.to_radians();
        ColorMatrix::HueRotate {
            cosine: angle.cos(),
            sine: angle.sin(),
        }
    }
}

/// Applies a color matrix filter, in place.
///
/// Results are cut, not rounded.
///
/// # Errors
///
/// [`Refusal::NotFinite`] and [`Refusal::Range`] of the numbers, as [`ColorMatrix`] has them.
///
/// ```
/// use nuprikhen::SheetMut;
/// use nuprikhen::color_matrix::{self, ColorMatrix};
///
/// let half = [
///     0.5, 0.0, 0.0, 0.0, 0.0,
///     0.0, 0.5, 0.0, 0.0, 0.0,
///     0.0, 0.0, 0.5, 0.0, 0.0,
///     0.0, 0.0, 0.0, 1.0, 0.0,
/// ];
/// let mut bytes = [255, 128, 2, 255];
/// let mut src = SheetMut::new(1, 1, &mut bytes)?;
/// color_matrix::apply(&ColorMatrix::Matrix(&half), src.reborrow())?;
/// assert_eq!(src.bytes(), [127, 64, 1, 255]);
///
/// color_matrix::apply(&ColorMatrix::HueRotate { cosine: 0.0, sine: 1.0 }, src)?;
/// assert_eq!(bytes[3], 255);
/// # Ok::<(), nuprikhen::Refusal>(())
/// ```
pub fn apply(matrix: &ColorMatrix, src: SheetMut<Straight>) -> Result<(), Refusal> {
    let (width, height, src) = (src.width(), src.height(), src.into_bytes());
    let (start, length) = (src.as_mut_ptr(), src.len());
    // SAFETY: the sheet and the matrix are borrowed for this call, the sheet alone, each with its own
    // length.
    let answer = unsafe {
        match *matrix {
            ColorMatrix::Matrix(m) => {
                library::nup_color_matrix(width, height, m.as_ptr(), m.len(), start, length)
            }
            ColorMatrix::Saturate(v) => library::nup_saturate(width, height, v, start, length),
            ColorMatrix::HueRotate { cosine, sine } => {
                library::nup_hue_rotate(width, height, cosine, sine, start, length)
            }
            ColorMatrix::LuminanceToAlpha => {
                library::nup_luminance_to_alpha(width, height, start, length)
            }
        }
    };
    answer.told()
}
