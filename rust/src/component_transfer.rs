//! resvg's component_transfer.rs, without Gamma.

use crate::{Refusal, SheetMut, Straight, library};

/// What becomes of a channel, as a number from 0 to 1. All numbers here are -65,536 to 65,536.
#[derive(Clone, Copy, Debug, PartialEq)]
pub enum TransferFunction<'a> {
    /// The channel is left alone.
    Identity,
    /// Up to 256 entries, and straight lines between them; without entries the channel is left alone.
    Table(&'a [f32]),
    /// Up to 256 entries, each for an equal part of the range; without entries the channel is left
    /// alone.
    Discrete(&'a [f32]),
    /// The slope times the channel, and the intercept.
    Linear {
        /// What the channel is multiplied by.
        slope: f32,
        /// What is added.
        intercept: f32,
    },
}

impl TransferFunction<'_> {
    /// The number of the kind.
    pub(crate) fn kind(&self) -> u8 {
        match self {
            TransferFunction::Identity => 0,
            TransferFunction::Table(_) => 1,
            TransferFunction::Discrete(_) => 2,
            TransferFunction::Linear { .. } => 3,
        }
    }

    /// The entries, or the slope and the intercept, which are written to `pair`.
    fn values<'a>(&'a self, pair: &'a mut [f32; 2]) -> &'a [f32] {
        match *self {
            TransferFunction::Identity => &[],
            TransferFunction::Table(values) | TransferFunction::Discrete(values) => values,
            TransferFunction::Linear { slope, intercept } => {
                *pair = [slope, intercept];
                pair
            }
        }
    }
}

/// Applies component transfer functions for each `src` image channel, in place.
///
/// Results are cut, not rounded.
///
/// # Errors
///
/// [`Refusal::Shape`] of over 256 entries; [`Refusal::NotFinite`] and [`Refusal::Range`] of the numbers, as
/// [`TransferFunction`] has them.
///
/// ```
/// use nuprikhen::SheetMut;
/// use nuprikhen::component_transfer::{self, TransferFunction};
///
/// let two = TransferFunction::Discrete(&[0.0, 1.0]);
/// let turned = TransferFunction::Table(&[1.0, 0.0]);
/// let half = TransferFunction::Linear { slope: 0.5, intercept: 0.0 };
/// let mut bytes = [127, 0, 255, 99, 128, 255, 2, 99];
/// let src = SheetMut::new(2, 1, &mut bytes)?;
/// component_transfer::apply(&two, &turned, &half, &TransferFunction::Identity, src)?;
/// assert_eq!(bytes, [0, 255, 127, 99, 255, 0, 1, 99]);
/// # Ok::<(), nuprikhen::Refusal>(())
/// ```
pub fn apply(
    r: &TransferFunction,
    g: &TransferFunction,
    b: &TransferFunction,
    a: &TransferFunction,
    src: SheetMut<Straight>,
) -> Result<(), Refusal> {
    let (width, height, src) = (src.width(), src.height(), src.into_bytes());
    let kinds = [r, g, b, a].map(TransferFunction::kind);
    let mut pairs = [[0.0; 2]; 4];
    let [pair_r, pair_g, pair_b, pair_a] = &mut pairs;
    let (r, g) = (r.values(pair_r), g.values(pair_g));
    let (b, a) = (b.values(pair_b), a.values(pair_a));
    // SAFETY: the sheet and the values are borrowed for this call, the sheet alone, each with its own
    // length.
    let answer = unsafe {
        library::nup_component_transfer(
            width,
            height,
            kinds[0],
            r.as_ptr(),
            r.len(),
            kinds[1],
            g.as_ptr(),
            g.len(),
            kinds[2],
            b.as_ptr(),
            b.len(),
            kinds[3],
            a.as_ptr(),
            a.len(),
            src.as_mut_ptr(),
            src.len(),
        )
    };
    answer.told()
}
