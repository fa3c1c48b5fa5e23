//! What a run is lent.

use alloc::vec;
use alloc::vec::Vec;

/// How the colours of a sheet stand to its alpha.
#[derive(Clone, Copy, Debug, PartialEq, Eq, Hash)]
pub enum Kind {
    /// They are apart from it.
    Straight = 0,
    /// They are multiplied by it.
    Premultiplied = 1,
}

/// What a run is lent, all sheets of 4 x width x height bytes. `S` and `B` are anything that owns or borrows
/// bytes, as `Vec<u8>`, `&[u8]` (the source alone) or `&mut [u8]`.
#[derive(Clone, Debug, PartialEq, Eq)]
pub struct Sheets<S, B> {
    /// The kind of the source.
    pub kind: Kind,
    /// 1 to 4,096.
    pub width: u32,
    /// 1 to 4,096.
    pub height: u32,
    /// Slot 0, which is never written.
    pub source: S,
    /// The working slots 1, 2 and 3.
    pub slots: [B; 3],
    /// All zero after a run.
    pub scratch: B,
}

impl<S: AsRef<[u8]>> Sheets<S, Vec<u8>> {
    /// A source with working slots and scratch of its own, as long as it and all zero.
    ///
    /// ```
    /// use nuprikhen::recipe::{Kind, Sheets};
    ///
    /// let sheets = Sheets::new(Kind::Straight, 1, 2, [255; 8]);
    /// assert_eq!(sheets.slots[0], [0; 8]);
    /// ```
    #[must_use]
    pub fn new(kind: Kind, width: u32, height: u32, source: S) -> Self {
        let clear = || vec![0; source.as_ref().len()];
        Sheets {
            kind,
            width,
            height,
            slots: [clear(), clear(), clear()],
            scratch: clear(),
            source,
        }
    }
}
