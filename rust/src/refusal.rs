//! Why a call is turned away.

use core::error::Error;
use core::fmt;

/// Why a call was turned away. No lent byte has changed.
///
/// The first test that fails gives the answer. A single call is tested 1 to 5 of docs/LAW.md's numbers, a
/// recipe 10, 6 (over 16 steps), 11, 1, 2, 6 (no steps), and step by step 7, 8, 3, 4, 5.
///
/// ```
/// use nuprikhen::color_matrix::{self, ColorMatrix};
/// use nuprikhen::{Refusal, SheetMut};
///
/// let mut bytes = [10, 20, 30, 255];
/// let sheet = SheetMut::new(1, 1, &mut bytes)?;
/// let refusal = color_matrix::apply(&ColorMatrix::Saturate(f32::NAN), sheet).unwrap_err();
/// assert!(matches!(refusal, Refusal::NotFinite { .. }));
/// assert_eq!((refusal.number(), refusal.name(), refusal.step()), (4, "NotFinite", None));
/// assert_eq!(refusal.to_string(), "refused 4 (NotFinite): a parameter is NaN or infinite");
/// assert_eq!(bytes, [10, 20, 30, 255]);
/// # Ok::<(), Refusal>(())
/// ```
///
/// A later version may have more reasons:
///
/// ```compile_fail,E0004
/// # use nuprikhen::Refusal;
/// fn of_a_sheet(refusal: Refusal) -> bool {
///     match refusal {
///         Refusal::Size | Refusal::Length => true,
///         Refusal::Shape { .. } | Refusal::NotFinite { .. } | Refusal::Range { .. } => false,
///         Refusal::Steps | Refusal::Slot { .. } | Refusal::Kind { .. } => false,
///         Refusal::Malformed { .. } | Refusal::Room => false,
///     }
/// }
/// ```
///
/// And what tells its place is made by the library alone:
///
/// ```compile_fail,E0639
/// let refusal = nuprikhen::Refusal::Malformed { offset: 3 };
/// ```
#[derive(Clone, Copy, Debug, PartialEq, Eq, Hash)]
#[non_exhaustive]
pub enum Refusal {
    /// 1: width or height outside 1..=4,096.
    Size,
    /// 2: a sheet or scratch is not exactly 4 x width x height bytes, or two sheets differ in size.
    Length,
    /// 3: a matrix is not of 20 numbers, a table is over 256 entries, or a kernel has a wrong side,
    /// target or count.
    #[non_exhaustive]
    Shape {
        /// The step of a recipe; `None` in a single call.
        step: Option<RefusedStep>,
    },
    /// 4: a parameter is NaN or infinite.
    #[non_exhaustive]
    NotFinite {
        /// The step of a recipe; `None` in a single call.
        step: Option<RefusedStep>,
    },
    /// 5: a finite parameter is outside its range.
    #[non_exhaustive]
    Range {
        /// The step of a recipe; `None` in a single call.
        step: Option<RefusedStep>,
    },
    /// 6: a recipe of no steps or of over 16.
    Steps,
    /// 7: a slot that the step cannot read or write.
    #[non_exhaustive]
    Slot {
        /// The step of the recipe.
        step: Option<RefusedStep>,
    },
    /// 8: an input of the wrong kind.
    #[non_exhaustive]
    Kind {
        /// The step of the recipe.
        step: Option<RefusedStep>,
    },
    /// 10: the message has a wrong number.
    #[non_exhaustive]
    Malformed {
        /// Where in the message the wrong number begins.
        offset: u64,
    },
    /// 11: over 16,384 numbers of matrices, tables and kernels.
    Room,
}

/// The step of a recipe that is refused.
#[derive(Clone, Copy, Debug, PartialEq, Eq, Hash)]
pub struct RefusedStep {
    index: u8,
    /// The step's code of docs/MESSAGES.md; 0 where it is not known.
    code: u8,
}

impl RefusedStep {
    #[cfg(feature = "alloc")]
    pub(crate) fn new(index: u8, code: u8) -> RefusedStep {
        RefusedStep { index, code }
    }

    /// Its index in the recipe, from 0.
    #[must_use]
    pub fn index(self) -> u8 {
        self.index
    }

    /// The name of what it does, as "morphology".
    #[must_use]
    pub fn primitive(self) -> Option<&'static str> {
        self.row().map(|primitive| primitive.name)
    }

    fn row(self) -> Option<&'static Primitive> {
        PRIMITIVES.get(usize::from(self.code).wrapping_sub(1))
    }
}

/// What the steps of a recipe take.
struct Primitive {
    name: &'static str,
    /// What refusal 3 says of it.
    shape: &'static str,
    /// What refusal 5 says of it.
    range: &'static str,
    /// What refusal 8 says of it.
    kind: &'static str,
}

/// By their codes, from 1 on.
const PRIMITIVES: [Primitive; 9] = [
    Primitive {
        name: "morphology",
        shape: "",
        range: "radii are 0 to 65,536",
        kind: "the input must be premultiplied",
    },
    Primitive {
        name: "color_matrix",
        shape: "a matrix has 20 numbers",
        range: "a matrix and a saturation are -65,536 to 65,536, and the squares of a cosine and a sine sum \
                to 1, up to 1/1,024",
        kind: "the input must be straight",
    },
    Primitive {
        name: "component_transfer",
        shape: "a table has at most 256 entries",
        range: "entries, slopes and intercepts are -65,536 to 65,536",
        kind: "the input must be straight",
    },
    Primitive {
        name: "arithmetic",
        shape: "",
        range: "k1 to k4 are -65,536 to 65,536",
        kind: "both inputs must be premultiplied",
    },
    Primitive {
        name: "convolve_matrix",
        shape: "a kernel has 1 to 15 columns and rows, its target inside, and columns x rows numbers",
        range: "a kernel and a bias are -65,536 to 65,536, a divisor the same and in size at least 1/65,536",
        kind: "the input must be premultiplied, or straight where alpha is preserved",
    },
    Primitive {
        name: "displacement_map",
        shape: "",
        range: "sx and sy are -16 to 16, scale -4,096 to 4,096",
        kind: "the map must be straight",
    },
    Primitive {
        name: "turbulence",
        shape: "",
        range: "offsets are -4,096 to 4,096, scales 1/16 to 16, frequencies 0 to 16, octaves at most 8",
        kind: "",
    },
    Primitive {
        name: "diffuse_lighting",
        shape: "",
        range: "surface_scale is -256 to 256, diffuse_constant 0 to 256, a light's place -65,536 to 65,536, \
                and the squares of its direction sum to 1, up to 1/1,024",
        kind: "",
    },
    Primitive {
        name: "specular_lighting",
        shape: "",
        range: "surface_scale is -256 to 256, specular_constant 0 to 256, specular_exponent 1, a light's place \
                -65,536 to 65,536, and the squares of its direction sum to 1, up to 1/1,024",
        kind: "",
    },
];

impl Refusal {
    /// The refusal of a number, in a recipe with its step or its offset in the message.
    pub(crate) fn of(number: u8, step: Option<RefusedStep>, offset: u64) -> Refusal {
        match number {
            1 => Refusal::Size,
            2 => Refusal::Length,
            3 => Refusal::Shape { step },
            4 => Refusal::NotFinite { step },
            6 => Refusal::Steps,
            7 => Refusal::Slot { step },
            8 => Refusal::Kind { step },
            10 => Refusal::Malformed { offset },
            11 => Refusal::Room,
            // 5; the library gives no other, and one would be a number that names no case.
            _ => Refusal::Range { step },
        }
    }

    /// The number of the test that failed, as docs/LAW.md and the C functions have it.
    #[must_use]
    pub fn number(&self) -> u8 {
        match self {
            Refusal::Size => 1,
            Refusal::Length => 2,
            Refusal::Shape { .. } => 3,
            Refusal::NotFinite { .. } => 4,
            Refusal::Range { .. } => 5,
            Refusal::Steps => 6,
            Refusal::Slot { .. } => 7,
            Refusal::Kind { .. } => 8,
            Refusal::Malformed { .. } => 10,
            Refusal::Room => 11,
        }
    }

    /// The short name, which is the variant's.
    #[must_use]
    pub fn name(&self) -> &'static str {
        match self {
            Refusal::Size => "Size",
            Refusal::Length => "Length",
            Refusal::Shape { .. } => "Shape",
            Refusal::NotFinite { .. } => "NotFinite",
            Refusal::Range { .. } => "Range",
            Refusal::Steps => "Steps",
            Refusal::Slot { .. } => "Slot",
            Refusal::Kind { .. } => "Kind",
            Refusal::Malformed { .. } => "Malformed",
            Refusal::Room => "Room",
        }
    }

    /// The index of the refused step of a recipe, from 0; `None` in a single call, and where the recipe
    /// is refused as a whole (1, 2, 6, 10 and 11).
    #[must_use]
    pub fn step(&self) -> Option<u8> {
        self.refused_step().map(RefusedStep::index)
    }

    /// Of [`Refusal::Malformed`], where in the message the wrong number begins.
    #[must_use]
    pub fn offset(&self) -> Option<u64> {
        match *self {
            Refusal::Malformed { offset } => Some(offset),
            _ => None,
        }
    }

    fn refused_step(&self) -> Option<RefusedStep> {
        match *self {
            Refusal::Shape { step }
            | Refusal::NotFinite { step }
            | Refusal::Range { step }
            | Refusal::Slot { step }
            | Refusal::Kind { step } => step,
            _ => None,
        }
    }

    /// What is wrong, in the words of the refused step where there are any.
    fn words(&self) -> &'static str {
        let primitive = self.refused_step().and_then(RefusedStep::row);
        let own = primitive.map(|primitive| match self {
            Refusal::Shape { .. } => primitive.shape,
            Refusal::Range { .. } => primitive.range,
            Refusal::Kind { .. } => primitive.kind,
            _ => "",
        });
        own.filter(|words| !words.is_empty()).unwrap_or(self.when())
    }

    /// What is wrong, of any call.
    fn when(&self) -> &'static str {
        match self {
            Refusal::Size => "width or height outside 1..=4,096",
            Refusal::Length => {
                "a sheet or scratch is not exactly 4 x width x height bytes, or two sheets differ in size"
            }
            Refusal::Shape { .. } => {
                "a matrix is not of 20 numbers, a table is over 256 entries, or a kernel is misshapen"
            }
            Refusal::NotFinite { .. } => "a parameter is NaN or infinite",
            Refusal::Range { .. } => "a finite parameter is outside its range",
            Refusal::Steps => "a recipe of 0 steps or over 16",
            Refusal::Slot { .. } => {
                "a step writes slot 1, 2 or 3, none that it reads, and reads slot 0 or what an earlier one \
                 wrote"
            }
            Refusal::Kind { .. } => "an input of the wrong kind",
            Refusal::Malformed { .. } => {
                "the bytes end early, a number is not in its shortest form or too large, a code is unknown, \
                 or bytes are left over"
            }
            Refusal::Room => "over 16,384 numbers of matrices, tables and kernels",
        }
    }
}

impl fmt::Display for Refusal {
    fn fmt(&self, out: &mut fmt::Formatter) -> fmt::Result {
        write!(out, "refused {} ({})", self.number(), self.name())?;
        if let Some(step) = self.refused_step() {
            write!(out, " at step {}", step.index)?;
            if let Some(primitive) = step.primitive() {
                write!(out, ", {primitive}")?;
            }
        }
        if let Some(offset) = self.offset() {
            write!(out, " at byte {offset}")?;
        }
        write!(out, ": {}", self.words())
    }
}

impl Error for Refusal {}

#[cfg(test)]
mod tests {
    use super::{Refusal, RefusedStep};
    use std::string::ToString;

    const STEP: Option<RefusedStep> = Some(RefusedStep { index: 3, code: 0 });

    #[test]
    fn every_number_has_a_name() {
        let names = [
            "Size",
            "Length",
            "Shape",
            "NotFinite",
            "Range",
            "Steps",
            "Slot",
            "Kind",
        ];
        for (number, name) in (1..).zip(names).chain([(10, "Malformed"), (11, "Room")]) {
            let refusal = Refusal::of(number, None, 0);
            assert_eq!((refusal.number(), refusal.name()), (number, name));
        }
    }

    #[test]
    fn a_number_that_is_never_given_names_no_case() {
        for number in [0, 9].into_iter().chain(12..=255) {
            assert_eq!(Refusal::of(number, STEP, 7), Refusal::Range { step: STEP });
        }
    }

    /// A step is told of 3, 4, 5, 7 and 8, an offset of 10.
    #[test]
    fn what_tells_its_place() {
        for number in (1..=8).chain(10..=11) {
            let refusal = Refusal::of(number, STEP, 7);
            let step = [3, 4, 5, 7, 8].contains(&number).then_some(3);
            assert_eq!(refusal.step(), step, "{number}");
            assert_eq!(refusal.offset(), (number == 10).then_some(7), "{number}");
            assert_eq!(Refusal::of(number, None, 7).step(), None, "{number}");
        }
    }

    #[test]
    fn a_later_step_is_told() {
        let told = Refusal::of(8, STEP, 0).to_string();
        assert_eq!(
            told,
            "refused 8 (Kind) at step 3: an input of the wrong kind"
        );
    }

    #[test]
    fn step_0_is_told_in_a_recipe() {
        let step = |code| Some(RefusedStep { index: 0, code });
        assert_eq!(
            Refusal::of(4, step(9), 0).to_string(),
            "refused 4 (NotFinite) at step 0, specular_lighting: a parameter is NaN or infinite"
        );
        assert_eq!(
            Refusal::of(4, step(0), 0).to_string(),
            "refused 4 (NotFinite) at step 0: a parameter is NaN or infinite"
        );
    }
}
