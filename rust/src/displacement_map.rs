//! resvg's displacement_map.rs.

use crate::{Refusal, SheetKind, SheetMut, SheetRef, Straight, library};

/// A channel of the map, which moves columns or rows.
#[derive(Clone, Copy, Debug, PartialEq, Eq, Hash)]
#[repr(u8)]
pub enum ColorChannel {
    /// Red.
    R = 0,
    /// Green.
    G = 1,
    /// Blue.
    B = 2,
    /// Alpha.
    A = 3,
}

/// Which channels of the map move, and how far.
#[derive(Clone, Copy, Debug, PartialEq)]
pub struct DisplacementMap {
    /// The channel that moves columns.
    pub x_channel_selector: ColorChannel,
    /// The channel that moves rows.
    pub y_channel_selector: ColorChannel,
    /// How far a channel of 255 moves against one of 0, -4,096 to 4,096.
    pub scale: f32,
}

/// Applies a displacement map.
///
/// Each pixel of `dest` is the one of `src` at its column plus (x / 255 - 0.5) x sx x scale, rounded half
/// away from zero, where x is the x channel of the map's pixel there, and at its row likewise; off the
/// sheet it is clear. `src` can be of any kind, and `dest` is of the same.
///
/// # Errors
///
/// [`Refusal::Length`] where the sheets differ in size; [`Refusal::NotFinite`] and [`Refusal::Range`] of
/// `sx` and `sy`, which are -16 to 16, and of the scale.
///
/// ```
/// use nuprikhen::displacement_map::{self, ColorChannel, DisplacementMap};
/// use nuprikhen::{Premultiplied, SheetMut, SheetRef};
///
/// // Two pixels in a row; red 255 moves by one column, green 128 by none.
/// let fe = DisplacementMap {
///     x_channel_selector: ColorChannel::R,
///     y_channel_selector: ColorChannel::G,
///     scale: 2.0,
/// };
/// let src = SheetRef::<Premultiplied>::new(2, 1, &[1, 2, 3, 4, 5, 6, 7, 8])?;
/// let map = SheetRef::new(2, 1, &[255, 128, 0, 0, 255, 128, 0, 0])?;
/// let mut bytes = [9; 8];
/// displacement_map::apply(&fe, 1.0, 1.0, src, map, SheetMut::new(2, 1, &mut bytes)?)?;
/// assert_eq!(bytes, [5, 6, 7, 8, 0, 0, 0, 0]);
/// # Ok::<(), nuprikhen::Refusal>(())
/// ```
///
/// A picture keeps its kind:
///
/// ```compile_fail,E0308
/// # use nuprikhen::displacement_map::{self, DisplacementMap};
/// # use nuprikhen::{Premultiplied, SheetMut, SheetRef, Straight};
/// fn moved(fe: &DisplacementMap, src: SheetRef<Straight>, dest: SheetMut<Premultiplied>) {
///     displacement_map::apply(fe, 1.0, 1.0, src, src, dest).unwrap();
/// }
/// ```
pub fn apply<K: SheetKind>(
    fe: &DisplacementMap,
    sx: f32,
    sy: f32,
    src: SheetRef<K>,
    map: SheetRef<Straight>,
    dest: SheetMut<K>,
) -> Result<(), Refusal> {
    src.is_of_size(map.width(), map.height())?;
    src.is_of_size(dest.width(), dest.height())?;
    let dest = dest.into_bytes();
    // SAFETY: the three slices are borrowed for this call, `dest` alone, each with its own length.
    let answer = unsafe {
        library::nup_displacement_map(
            src.width(),
            src.height(),
            fe.x_channel_selector as u8,
            fe.y_channel_selector as u8,
            sx,
            sy,
            fe.scale,
            src.bytes().as_ptr(),
            src.bytes().len(),
            map.bytes().as_ptr(),
            map.bytes().len(),
            dest.as_mut_ptr(),
            dest.len(),
        )
    };
    answer.told()
}
