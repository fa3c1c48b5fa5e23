//! Sheets: lent bytes with their size and the kind of their colour.

use core::fmt::Debug;
use core::hash::Hash;
use core::marker::PhantomData;

use crate::{Refusal, SIDE_LIMIT};

mod sealed {
    pub trait Sealed {}
}

/// How the colours of a sheet stand to its alpha: [`Straight`] or [`Premultiplied`].
pub trait SheetKind: Copy + Debug + Eq + Hash + sealed::Sealed {}

/// The kind of a sheet whose colours are not multiplied by its alpha.
#[derive(Clone, Copy, Debug, PartialEq, Eq, Hash)]
pub enum Straight {}

/// The kind of a sheet whose colours are multiplied by its alpha.
#[derive(Clone, Copy, Debug, PartialEq, Eq, Hash)]
pub enum Premultiplied {}

impl sealed::Sealed for Straight {}
impl sealed::Sealed for Premultiplied {}
impl SheetKind for Straight {}
impl SheetKind for Premultiplied {}

/// A sheet that is lent to be read: r, g, b, a of each pixel, row by row.
///
/// The kind `K` is what whoever makes the sheet says of its bytes, and a function takes the kind that it
/// works on. Where a picture is opaque both kinds are the same bytes, and [`SheetRef::new`] makes a sheet
/// of the other kind of them.
///
/// ```
/// use nuprikhen::{Premultiplied, Refusal, SheetRef, Straight};
///
/// let bytes = [200, 100, 0, 255, 9, 9, 9, 255];
/// let straight = SheetRef::<Straight>::new(2, 1, &bytes)?;
/// let premultiplied = SheetRef::<Premultiplied>::new(2, 1, straight.bytes())?;
/// assert_eq!((premultiplied.width(), premultiplied.height()), (2, 1));
/// assert_eq!(SheetRef::<Straight>::new(1, 1, &bytes), Err(Refusal::Length));
/// # Ok::<(), Refusal>(())
/// ```
#[derive(Clone, Copy, Debug, PartialEq, Eq, Hash)]
pub struct SheetRef<'a, K> {
    width: u32,
    height: u32,
    bytes: &'a [u8],
    kind: PhantomData<K>,
}

/// A sheet that is lent to be written: r, g, b, a of each pixel, row by row.
///
/// Functions take it by value: [`SheetMut::reborrow`] lends it and keeps it, [`SheetMut::as_ref`] lends
/// it to be read. The kind `K` is as of [`SheetRef`].
///
/// ```
/// use nuprikhen::color_matrix::{self, ColorMatrix};
/// use nuprikhen::{SheetMut, Straight};
///
/// let mut bytes = [255, 0, 0, 99];
/// let mut sheet = SheetMut::<Straight>::new(1, 1, &mut bytes)?;
/// color_matrix::apply(&ColorMatrix::Saturate(0.0), sheet.reborrow())?;
/// assert_eq!(sheet.bytes(), [54, 54, 54, 99]);
/// color_matrix::apply(&ColorMatrix::LuminanceToAlpha, sheet)?;
/// assert_eq!(bytes, [0, 0, 0, 54]);
/// # Ok::<(), nuprikhen::Refusal>(())
/// ```
///
/// Straight and premultiplied sheets are two types, and neither stands for the other:
///
/// ```compile_fail,E0308
/// use nuprikhen::color_matrix::{self, ColorMatrix};
/// use nuprikhen::{Premultiplied, SheetMut};
///
/// let mut bytes = [255, 0, 0, 99];
/// let sheet = SheetMut::<Premultiplied>::new(1, 1, &mut bytes)?;
/// color_matrix::apply(&ColorMatrix::Saturate(0.0), sheet)?;
/// # Ok::<(), nuprikhen::Refusal>(())
/// ```
#[derive(Debug, PartialEq, Eq, Hash)]
pub struct SheetMut<'a, K> {
    width: u32,
    height: u32,
    bytes: &'a mut [u8],
    kind: PhantomData<K>,
}

/// Tests 1 and 2 of a sheet's length.
fn tested(width: u32, height: u32, length: usize) -> Result<(), Refusal> {
    let side = 1..=SIDE_LIMIT;
    if !side.contains(&width) || !side.contains(&height) {
        return Err(Refusal::Size);
    }
    match length == 4 * width as usize * height as usize {
        true => Ok(()),
        false => Err(Refusal::Length),
    }
}

impl<'a, K: SheetKind> SheetRef<'a, K> {
    /// The sheet of these bytes, 4 x width x height of them.
    ///
    /// # Errors
    ///
    /// [`Refusal::Size`] where a side is not 1 to 4,096, then [`Refusal::Length`] of any other length.
    pub fn new(width: u32, height: u32, bytes: &'a [u8]) -> Result<Self, Refusal> {
        tested(width, height, bytes.len())?;
        Ok(SheetRef {
            width,
            height,
            bytes,
            kind: PhantomData,
        })
    }

    /// The pixels of a row.
    #[must_use]
    pub fn width(self) -> u32 {
        self.width
    }

    /// The number of rows.
    #[must_use]
    pub fn height(self) -> u32 {
        self.height
    }

    /// The bytes, for as long as they are lent.
    #[must_use]
    pub fn bytes(self) -> &'a [u8] {
        self.bytes
    }

    /// Test 2 of a second sheet in a call: it is of this one's size.
    pub(crate) fn is_of_size(self, width: u32, height: u32) -> Result<(), Refusal> {
        match (self.width, self.height) == (width, height) {
            true => Ok(()),
            false => Err(Refusal::Length),
        }
    }
}

impl<'a, K: SheetKind> SheetMut<'a, K> {
    /// The sheet of these bytes, 4 x width x height of them.
    ///
    /// # Errors
    ///
    /// [`Refusal::Size`] where a side is not 1 to 4,096, then [`Refusal::Length`] of any other length.
    pub fn new(width: u32, height: u32, bytes: &'a mut [u8]) -> Result<Self, Refusal> {
        tested(width, height, bytes.len())?;
        Ok(SheetMut {
            width,
            height,
            bytes,
            kind: PhantomData,
        })
    }

    /// The pixels of a row.
    #[must_use]
    pub fn width(&self) -> u32 {
        self.width
    }

    /// The number of rows.
    #[must_use]
    pub fn height(&self) -> u32 {
        self.height
    }

    /// The bytes, to be read.
    #[must_use]
    pub fn bytes(&self) -> &[u8] {
        self.bytes
    }

    /// The bytes, to be written.
    #[must_use]
    pub fn bytes_mut(&mut self) -> &mut [u8] {
        self.bytes
    }

    /// The bytes, for as long as they are lent.
    #[must_use]
    pub fn into_bytes(self) -> &'a mut [u8] {
        self.bytes
    }

    /// The same sheet, to be read for a while.
    #[must_use]
    pub fn as_ref(&self) -> SheetRef<'_, K> {
        SheetRef {
            width: self.width,
            height: self.height,
            bytes: self.bytes,
            kind: PhantomData,
        }
    }

    /// The same sheet, to be written for a while.
    #[must_use]
    pub fn reborrow(&mut self) -> SheetMut<'_, K> {
        SheetMut {
            width: self.width,
            height: self.height,
            bytes: self.bytes,
            kind: PhantomData,
        }
    }

    /// The same bytes as another kind, which a filter made of them.
    pub(crate) fn into_kind<L: SheetKind>(self) -> SheetMut<'a, L> {
        SheetMut {
            width: self.width,
            height: self.height,
            bytes: self.bytes,
            kind: PhantomData,
        }
    }
}
