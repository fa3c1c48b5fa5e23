//! resvg's composite.rs.

use crate::{Premultiplied, Refusal, SheetMut, SheetRef, library};

/// Performs an arithmetic composition.
///
/// Each channel of `dest` becomes k1 x src1 x src2 + k2 x src1 + k3 x src2 + k4; where the new alpha is
/// near zero all four are 0.
///
/// # Errors
///
/// [`Refusal::Length`] where the sheets differ in size; [`Refusal::NotFinite`] and [`Refusal::Range`] of k1
/// to k4, which are -65,536 to 65,536.
///
/// ```
/// use nuprikhen::{SheetMut, SheetRef, composite};
///
/// let src1 = SheetRef::new(1, 1, &[100, 0, 0, 100])?;
/// let src2 = SheetRef::new(1, 1, &[0, 60, 0, 60])?;
/// let mut bytes = [9; 4];
/// let dest = SheetMut::new(1, 1, &mut bytes)?;
/// composite::arithmetic(0.0, 1.0, 1.0, 0.0, src1, src2, dest)?;
/// assert_eq!(bytes, [100, 60, 0, 160]);
/// # Ok::<(), nuprikhen::Refusal>(())
/// ```
pub fn arithmetic(
    k1: f32,
    k2: f32,
    k3: f32,
    k4: f32,
    src1: SheetRef<Premultiplied>,
    src2: SheetRef<Premultiplied>,
    dest: SheetMut<Premultiplied>,
) -> Result<(), Refusal> {
    src1.is_of_size(src2.width(), src2.height())?;
    src1.is_of_size(dest.width(), dest.height())?;
    let dest = dest.into_bytes();
    // SAFETY: the three slices are borrowed for this call, `dest` alone, each with its own length.
    let answer = unsafe {
        library::nup_arithmetic(
            src1.width(),
            src1.height(),
            k1,
            k2,
            k3,
            k4,
            src1.bytes().as_ptr(),
            src1.bytes().len(),
            src2.bytes().as_ptr(),
            src2.bytes().len(),
            dest.as_mut_ptr(),
            dest.len(),
        )
    };
    answer.told()
}
