//! resvg's morphology.rs.

use crate::{Premultiplied, Refusal, SheetMut, library};

/// Whether a region grows or shrinks.
#[derive(Clone, Copy, Debug, PartialEq, Eq, Hash)]
pub enum MorphologyOperator {
    /// The maximum of each channel.
    Dilate = 0,
    /// The minimum of each channel.
    Erode = 1,
}

/// Applies a morphology filter, in place.
///
/// Each channel becomes the maximum or the minimum within the radii, which are rounded half away from
/// zero; the window is clipped at the edges. `scratch` is as long as `src`, and all zero afterwards.
///
/// # Errors
///
/// [`Refusal::Length`] of scratch; [`Refusal::NotFinite`] and [`Refusal::Range`] of the radii, which are 0
/// to 65,536.
///
/// ```
/// use nuprikhen::SheetMut;
/// use nuprikhen::morphology::{self, MorphologyOperator};
///
/// let mut bytes = [0, 0, 0, 10, 0, 0, 0, 200, 0, 0, 0, 30];
/// let mut scratch = [7; 12];
/// let src = SheetMut::new(3, 1, &mut bytes)?;
/// morphology::apply(MorphologyOperator::Erode, 1.0, 0.0, src, &mut scratch)?;
/// assert_eq!(bytes, [0, 0, 0, 10, 0, 0, 0, 10, 0, 0, 0, 30]);
/// assert_eq!(scratch, [0; 12]);
/// # Ok::<(), nuprikhen::Refusal>(())
/// ```
pub fn apply(
    operator: MorphologyOperator,
    rx: f32,
    ry: f32,
    src: SheetMut<Premultiplied>,
    scratch: &mut [u8],
) -> Result<(), Refusal> {
    let (width, height, src) = (src.width(), src.height(), src.into_bytes());
    // SAFETY: both slices are borrowed for this call alone, with their own lengths.
    let answer = unsafe {
        library::nup_morphology(
            width,
            height,
            operator as u8,
            rx,
            ry,
            src.as_mut_ptr(),
            src.len(),
            scratch.as_mut_ptr(),
            scratch.len(),
        )
    };
    answer.told()
}
