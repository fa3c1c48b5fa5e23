//! resvg's convolve_matrix.rs.

use crate::{Premultiplied, Refusal, SheetKind, SheetMut, Straight, library};

/// What stands for the pixels beyond the edges.
#[derive(Clone, Copy, Debug, PartialEq, Eq, Hash)]
pub enum EdgeMode {
    /// They are skipped.
    None = 0,
    /// The nearest pixel.
    Duplicate = 1,
    /// The pixel that is met from the opposite edge.
    Wrap = 2,
}

/// A kernel of `rows` rows of `columns` numbers, and what is done with its sums.
///
/// resvg's `preserve_alpha` is no field: it asks for a sheet of the other kind, and so it is a function of
/// its own, [`apply_preserving_alpha`].
#[derive(Clone, Copy, Debug, PartialEq)]
pub struct ConvolveMatrix<'a> {
    /// The numbers of a row, 1 to 15.
    pub columns: u32,
    /// 1 to 15.
    pub rows: u32,
    /// The column of the window that falls on the pixel.
    pub target_x: u32,
    /// The row of the window that falls on the pixel.
    pub target_y: u32,
    /// Row by row, each number -65,536 to 65,536; it is turned by half a turn.
    pub matrix: &'a [f32],
    /// Divides each sum; -65,536 to 65,536, in size at least 1/65,536.
    pub divisor: f32,
    /// Is added to alpha, and times the new alpha to each colour; -65,536 to 65,536.
    pub bias: f32,
    /// What stands for the pixels beyond the edges.
    pub edge_mode: EdgeMode,
}

/// Applies a convolve matrix to all four channels, in place.
///
/// `scratch` is as long as `src`, and all zero afterwards.
///
/// # Errors
///
/// [`Refusal::Length`] of scratch; [`Refusal::Shape`] of a side of the kernel outside 1 to 15, of a target
/// outside it, and of another number of numbers than columns x rows; [`Refusal::NotFinite`] and
/// [`Refusal::Range`] of the numbers, as [`ConvolveMatrix`] has them.
///
/// ```
/// use nuprikhen::SheetMut;
/// use nuprikhen::convolve_matrix::{self, ConvolveMatrix, EdgeMode};
///
/// let matrix = ConvolveMatrix {
///     columns: 3,
///     rows: 1,
///     target_x: 1,
///     target_y: 0,
///     matrix: &[1.0, 0.0, 0.0],
///     divisor: 1.0,
///     bias: 0.0,
///     edge_mode: EdgeMode::None,
/// };
/// let mut bytes = [0, 0, 0, 0, 0, 0, 0, 255, 0, 0, 0, 0];
/// let mut scratch = [7; 12];
/// convolve_matrix::apply(&matrix, SheetMut::new(3, 1, &mut bytes)?, &mut scratch)?;
/// assert_eq!(bytes, [0, 0, 0, 255, 0, 0, 0, 0, 0, 0, 0, 0]);
/// assert_eq!(scratch, [0; 12]);
/// # Ok::<(), nuprikhen::Refusal>(())
/// ```
pub fn apply(
    matrix: &ConvolveMatrix,
    src: SheetMut<Premultiplied>,
    scratch: &mut [u8],
) -> Result<(), Refusal> {
    convolved(matrix, false, src, scratch)
}

/// Applies a convolve matrix to the colours, in place: each pixel keeps its alpha, by which its new colours
/// are multiplied.
///
/// The sheet comes back as what it has become; lend it whole, since what is left of a reborrowed sheet
/// still counts as straight. `scratch` is as long as `src`, and all zero afterwards.
///
/// # Errors
///
/// As of [`apply`].
///
/// ```
/// use nuprikhen::SheetMut;
/// use nuprikhen::convolve_matrix::{self, ConvolveMatrix, EdgeMode};
/// use nuprikhen::morphology::{self, MorphologyOperator};
///
/// // A kernel of a single 1 premultiplies.
/// let one = ConvolveMatrix {
///     columns: 1,
///     rows: 1,
///     target_x: 0,
///     target_y: 0,
///     matrix: &[1.0],
///     divisor: 1.0,
///     bias: 0.0,
///     edge_mode: EdgeMode::None,
/// };
/// let (mut bytes, mut scratch) = ([200, 100, 0, 51], [0; 4]);
/// let straight = SheetMut::new(1, 1, &mut bytes)?;
/// let src = convolve_matrix::apply_preserving_alpha(&one, straight, &mut scratch)?;
/// assert_eq!(src.bytes(), [40, 20, 0, 51]);
/// morphology::apply(MorphologyOperator::Dilate, 1.0, 1.0, src, &mut scratch)?;
/// # Ok::<(), nuprikhen::Refusal>(())
/// ```
///
/// A premultiplied sheet is not taken:
///
/// ```compile_fail,E0308
/// # use nuprikhen::convolve_matrix::{self, ConvolveMatrix};
/// # use nuprikhen::{Premultiplied, SheetMut};
/// fn convolved(matrix: &ConvolveMatrix, src: SheetMut<Premultiplied>, scratch: &mut [u8]) {
///     convolve_matrix::apply_preserving_alpha(matrix, src, scratch).unwrap();
/// }
/// ```
pub fn apply_preserving_alpha<'a>(
    matrix: &ConvolveMatrix,
    mut src: SheetMut<'a, Straight>,
    scratch: &mut [u8],
) -> Result<SheetMut<'a, Premultiplied>, Refusal> {
    convolved(matrix, true, src.reborrow(), scratch)?;
    Ok(src.into_kind())
}

fn convolved<K: SheetKind>(
    matrix: &ConvolveMatrix,
    preserve_alpha: bool,
    src: SheetMut<K>,
    scratch: &mut [u8],
) -> Result<(), Refusal> {
    let (width, height, src) = (src.width(), src.height(), src.into_bytes());
    // SAFETY: the slices are borrowed for this call alone, with their own lengths.
    let answer = unsafe {
        library::nup_convolve_matrix(
            width,
            height,
            matrix.columns,
            matrix.rows,
            matrix.target_x,
            matrix.target_y,
            matrix.matrix.as_ptr(),
            matrix.matrix.len(),
            matrix.divisor,
            matrix.bias,
            matrix.edge_mode as u8,
            preserve_alpha as u8,
            src.as_mut_ptr(),
            src.len(),
            scratch.as_mut_ptr(),
            scratch.len(),
        )
    };
    answer.told()
}
