//! Recipes: several filters in a row over four sheets, and their bytes, which can be stored and sent.

mod bytes;
mod kinds;
mod sheets;

pub use sheets::{Kind, Sheets};

use crate::color_matrix::ColorMatrix;
use crate::component_transfer::TransferFunction;
use crate::convolve_matrix::ConvolveMatrix;
use crate::displacement_map::ColorChannel;
use crate::library::{self, ReachAnswer, RunAnswer};
use crate::lighting::{Color, LightSource};
use crate::morphology::MorphologyOperator;
use crate::{Refusal, RefusedStep};
use alloc::vec::Vec;
use bytes::Step;

/// Up to 16 steps. Each reads one or two slots, or none, and writes another.
///
/// Slot 0 is the source; slots 1 to 3 hold what steps wrote. The last step's output is the result. Steps bear
/// resvg's names and take a slot for each input, the output slot, then what the filter itself takes. No step is
/// tested as it is added: [`Recipe::run`] tests all of them before it writes a byte.
///
/// ```
/// use nuprikhen::morphology::MorphologyOperator::{Dilate, Erode};
/// use nuprikhen::recipe::{Kind, Recipe, Sheets};
///
/// // What a dilation adds round the edges.
/// let outline = Recipe::new()
///     .morphology(0, 1, Dilate, 1.0, 0.0)
///     .arithmetic(1, 0, 2, 0.0, 1.0, -1.0, 0.0);
/// let source = [0, 0, 0, 0, 0, 0, 0, 200, 0, 0, 0, 0, 0, 0, 0, 0];
/// let mut sheets = Sheets::new(Kind::Premultiplied, 4, 1, source);
/// let result = outline.run(&mut sheets)?;
/// assert_eq!(result, [0, 0, 0, 200, 0, 0, 0, 0, 0, 0, 0, 200, 0, 0, 0, 0]);
///
/// let eroded = Recipe::new().morphology(0, 1, Erode, -1.0, 0.0);
/// let refusal = eroded.run(&mut sheets).unwrap_err();
/// let said = "refused 5 (Range) at step 0, morphology: radii are 0 to 65,536";
/// assert_eq!(refusal.to_string(), said);
/// # Ok::<(), nuprikhen::Refusal>(())
/// ```
#[derive(Clone, Debug, Default, PartialEq, Eq, Hash)]
#[must_use = "a recipe does nothing until it is run or written"]
pub struct Recipe {
    steps: Vec<Step>,
}

impl Recipe {
    /// A recipe without steps.
    ///
    /// ```
    /// assert_eq!(nuprikhen::recipe::Recipe::new().to_bytes(), [0]);
    /// ```
    pub fn new() -> Recipe {
        Recipe::default()
    }

    fn with(mut self, step: Step) -> Recipe {
        self.steps.push(step);
        self
    }

    /// Adds a morphology filter; the input is premultiplied, as is the output.
    ///
    /// ```
    /// use nuprikhen::morphology::MorphologyOperator;
    /// use nuprikhen::recipe::Recipe;
    ///
    /// let recipe = Recipe::new().morphology(0, 1, MorphologyOperator::Dilate, 1.0, 0.0);
    /// assert_eq!(recipe.to_bytes(), [1, 1, 0, 1, 0, 0x80, 0x80, 0x80, 0xfc, 3, 0]);
    /// ```
    pub fn morphology(
        self,
        input: u32,
        output: u32,
        operator: MorphologyOperator,
        rx: f32,
        ry: f32,
    ) -> Recipe {
        let step = Step::new(1, &[input, output]);
        self.with(step.number(operator as u32).floats(&[rx, ry]))
    }

    /// Adds a color matrix filter; the input is straight, as is the output.
    ///
    /// ```
    /// use nuprikhen::color_matrix::ColorMatrix;
    /// use nuprikhen::recipe::{Kind, Recipe, Sheets};
    ///
    /// let grey = Recipe::new().color_matrix(0, 1, &ColorMatrix::Saturate(0.0));
    /// let mut sheets = Sheets::new(Kind::Straight, 1, 1, [255, 0, 0, 99]);
    /// assert_eq!(grey.run(&mut sheets)?, [54, 54, 54, 99]);
    /// # Ok::<(), nuprikhen::Refusal>(())
    /// ```
    pub fn color_matrix(self, input: u32, output: u32, matrix: &ColorMatrix) -> Recipe {
        let step = Step::new(2, &[input, output]);
        self.with(match *matrix {
            ColorMatrix::Matrix(numbers) => step.number(0).list(numbers),
            ColorMatrix::Saturate(v) => step.number(1).floats(&[v]),
            ColorMatrix::HueRotate { cosine, sine } => step.number(2).floats(&[cosine, sine]),
            ColorMatrix::LuminanceToAlpha => step.number(3),
        })
    }

    /// Adds component transfer functions; the input is straight, as is the output.
    ///
    /// ```
    /// use nuprikhen::component_transfer::TransferFunction::{Discrete, Identity};
    /// use nuprikhen::recipe::{Kind, Recipe, Sheets};
    ///
    /// let two = Discrete(&[0.0, 1.0]);
    /// let poster = Recipe::new().component_transfer(0, 1, &two, &two, &two, &Identity);
    /// let mut sheets = Sheets::new(Kind::Straight, 1, 1, [127, 128, 200, 99]);
    /// assert_eq!(poster.run(&mut sheets)?, [0, 255, 255, 99]);
    /// # Ok::<(), nuprikhen::Refusal>(())
    /// ```
    pub fn component_transfer(
        self,
        input: u32,
        output: u32,
        r: &TransferFunction,
        g: &TransferFunction,
        b: &TransferFunction,
        a: &TransferFunction,
    ) -> Recipe {
        let step = Step::new(3, &[input, output]);
        self.with([r, g, b, a].into_iter().fold(step, |step, function| {
            let step = step.number(function.kind().into());
            match *function {
                TransferFunction::Identity => step,
                TransferFunction::Table(values) | TransferFunction::Discrete(values) => {
                    step.list(values)
                }
                TransferFunction::Linear { slope, intercept } => step.floats(&[slope, intercept]),
            }
        }))
    }

    /// Adds an arithmetic composition; both inputs are premultiplied, as is the output.
    ///
    /// ```
    /// use nuprikhen::recipe::{Kind, Recipe, Sheets};
    ///
    /// let half = Recipe::new().arithmetic(0, 0, 1, 0.0, 0.25, 0.25, 0.0);
    /// let mut sheets = Sheets::new(Kind::Premultiplied, 1, 1, [0, 20, 40, 200]);
    /// assert_eq!(half.run(&mut sheets)?, [0, 10, 20, 100]);
    /// # Ok::<(), nuprikhen::Refusal>(())
    /// ```
    #[allow(clippy::too_many_arguments)]
    pub fn arithmetic(
        self,
        input1: u32,
        input2: u32,
        output: u32,
        k1: f32,
        k2: f32,
        k3: f32,
        k4: f32,
    ) -> Recipe {
        let step = Step::new(4, &[input1, input2, output]);
        self.with(step.floats(&[k1, k2, k3, k4]))
    }

    /// Adds a convolve matrix; the input is premultiplied, as is the output.
    ///
    /// ```
    /// use nuprikhen::convolve_matrix::{ConvolveMatrix, EdgeMode};
    /// use nuprikhen::recipe::{Kind, Recipe, Sheets};
    ///
    /// let mean = ConvolveMatrix {
    ///     columns: 2,
    ///     rows: 1,
    ///     target_x: 0,
    ///     target_y: 0,
    ///     matrix: &[1.0; 2],
    ///     divisor: 2.0,
    ///     bias: 0.0,
    ///     edge_mode: EdgeMode::Wrap,
    /// };
    /// let blurred = Recipe::new().convolve_matrix(0, 1, &mean);
    /// let mut sheets = Sheets::new(Kind::Premultiplied, 2, 1, [0, 0, 0, 0, 0, 100, 0, 200]);
    /// assert_eq!(blurred.run(&mut sheets)?, [0, 50, 0, 100, 0, 50, 0, 100]);
    /// # Ok::<(), nuprikhen::Refusal>(())
    /// ```
    pub fn convolve_matrix(self, input: u32, output: u32, matrix: &ConvolveMatrix) -> Recipe {
        self.convolved(input, output, matrix, false)
    }

    /// Adds a convolve matrix that preserves alpha; the input is straight, and the output is premultiplied.
    ///
    /// ```
    /// use nuprikhen::convolve_matrix::{ConvolveMatrix, EdgeMode};
    /// use nuprikhen::recipe::{Kind, Recipe, Sheets};
    ///
    /// // A kernel of a single 1 that preserves alpha premultiplies.
    /// let one = ConvolveMatrix {
    ///     columns: 1,
    ///     rows: 1,
    ///     target_x: 0,
    ///     target_y: 0,
    ///     matrix: &[1.0],
    ///     divisor: 1.0,
    ///     bias: 0.0,
    ///     edge_mode: EdgeMode::None,
    /// };
    /// let premultiplied = Recipe::new().convolve_matrix_preserving_alpha(0, 1, &one);
    /// let mut sheets = Sheets::new(Kind::Straight, 1, 1, [200, 100, 0, 51]);
    /// assert_eq!(premultiplied.run(&mut sheets)?, [40, 20, 0, 51]);
    /// # Ok::<(), nuprikhen::Refusal>(())
    /// ```
    pub fn convolve_matrix_preserving_alpha(
        self,
        input: u32,
        output: u32,
        matrix: &ConvolveMatrix,
    ) -> Recipe {
        self.convolved(input, output, matrix, true)
    }

    fn convolved(
        self,
        input: u32,
        output: u32,
        matrix: &ConvolveMatrix,
        preserve_alpha: bool,
    ) -> Recipe {
        let step = Step::new(5, &[input, output])
            .number(matrix.columns)
            .number(matrix.rows)
            .number(matrix.target_x)
            .number(matrix.target_y)
            .list(matrix.matrix)
            .floats(&[matrix.divisor, matrix.bias])
            .number(matrix.edge_mode as u32)
            .number(preserve_alpha.into());
        self.with(step)
    }

    /// Adds a displacement map; the map is straight, and the output is of the picture's kind.
    ///
    /// ```
    /// use nuprikhen::displacement_map::ColorChannel;
    /// use nuprikhen::recipe::{Kind, Recipe, Sheets};
    ///
    /// // A picture moved by itself: red 255 by one column, green 128 by none.
    /// let (x, y) = (ColorChannel::R, ColorChannel::G);
    /// let moved = Recipe::new().displacement_map(0, 0, 1, x, y, 1.0, 1.0, 2.0);
    /// let mut sheets = Sheets::new(Kind::Straight, 2, 1, [255, 128, 3, 4, 255, 128, 7, 8]);
    /// assert_eq!(moved.run(&mut sheets)?, [255, 128, 7, 8, 0, 0, 0, 0]);
    /// # Ok::<(), nuprikhen::Refusal>(())
    /// ```
    #[allow(clippy::too_many_arguments)]
    pub fn displacement_map(
        self,
        picture: u32,
        map: u32,
        output: u32,
        x_channel: ColorChannel,
        y_channel: ColorChannel,
        sx: f32,
        sy: f32,
        scale: f32,
    ) -> Recipe {
        let step = Step::new(6, &[picture, map, output])
            .number(x_channel as u32)
            .number(y_channel as u32)
            .floats(&[sx, sy, scale]);
        self.with(step)
    }

    /// Adds a turbulence filter, which reads no slot; the output is straight.
    ///
    /// ```
    /// use nuprikhen::recipe::{Kind, Recipe, Sheets};
    ///
    /// // No octave: fractal noise is the middle in every channel.
    /// let noise = Recipe::new().turbulence(1, 0.0, 0.0, 1.0, 1.0, 0.05, 0.05, 0, 7, true);
    /// let mut sheets = Sheets::new(Kind::Straight, 1, 1, [9; 4]);
    /// assert_eq!(noise.run(&mut sheets)?, [128; 4]);
    /// # Ok::<(), nuprikhen::Refusal>(())
    /// ```
    #[allow(clippy::too_many_arguments)]
    pub fn turbulence(
        self,
        output: u32,
        offset_x: f64,
        offset_y: f64,
        sx: f64,
        sy: f64,
        base_frequency_x: f64,
        base_frequency_y: f64,
        num_octaves: u32,
        seed: i32,
        fractal_noise: bool,
    ) -> Recipe {
        let step = Step::new(7, &[output])
            .doubles(&[offset_x, offset_y, sx, sy])
            .doubles(&[base_frequency_x, base_frequency_y])
            .number(num_octaves)
            .number(seed as u32)
            .number(fractal_noise.into());
        self.with(step)
    }

    /// Adds a diffuse lighting of the input's alpha, of any kind; the output is straight.
    ///
    /// ```
    /// use nuprikhen::lighting::{Color, LightSource};
    /// use nuprikhen::recipe::{Kind, Recipe, Sheets};
    ///
    /// let (above, red) = (LightSource::Distant(0.0, 0.0, 1.0), Color { red: 255, green: 0, blue: 0 });
    /// let lit = Recipe::new().diffuse_lighting(0, 1, above, 1.0, 1.0, red);
    /// let mut sheets = Sheets::new(Kind::Straight, 3, 3, [0; 36]);
    /// assert_eq!(lit.run(&mut sheets)?[..4], [255, 0, 0, 255]);
    /// # Ok::<(), nuprikhen::Refusal>(())
    /// ```
    pub fn diffuse_lighting(
        self,
        input: u32,
        output: u32,
        light: LightSource,
        surface_scale: f32,
        diffuse_constant: f32,
        color: Color,
    ) -> Recipe {
        let step = Step::new(8, &[input, output]).floats(&[surface_scale, diffuse_constant]);
        self.with(step.light(color, light))
    }

    /// Adds a specular lighting of the input's alpha, of any kind; the output is premultiplied.
    ///
    /// ```
    /// use nuprikhen::lighting::{Color, LightSource};
    /// use nuprikhen::recipe::{Kind, Recipe, Sheets};
    ///
    /// let (above, red) = (LightSource::Distant(0.0, 0.0, 1.0), Color { red: 255, green: 0, blue: 0 });
    /// let lit = Recipe::new().specular_lighting(0, 1, above, 1.0, 1.0, 1.0, red);
    /// let mut sheets = Sheets::new(Kind::Straight, 3, 3, [0; 36]);
    /// assert_eq!(lit.run(&mut sheets)?[..4], [255, 0, 0, 255]);
    /// # Ok::<(), nuprikhen::Refusal>(())
    /// ```
    #[allow(clippy::too_many_arguments)]
    pub fn specular_lighting(
        self,
        input: u32,
        output: u32,
        light: LightSource,
        surface_scale: f32,
        specular_constant: f32,
        specular_exponent: f32,
        color: Color,
    ) -> Recipe {
        let numbers = [surface_scale, specular_constant, specular_exponent];
        let step = Step::new(9, &[input, output]).floats(&numbers);
        self.with(step.light(color, light))
    }

    /// The recipe as a message, in the form of docs/MESSAGES.md. A NaN is written as 7fc00000, of a double as
    /// 7ff8000000000000.
    ///
    /// ```
    /// use nuprikhen::color_matrix::ColorMatrix;
    /// use nuprikhen::recipe::Recipe;
    ///
    /// let recipe = Recipe::new().color_matrix(0, 1, &ColorMatrix::LuminanceToAlpha);
    /// assert_eq!(recipe.to_bytes(), [1, 2, 0, 1, 3]);
    /// ```
    #[must_use]
    pub fn to_bytes(&self) -> Vec<u8> {
        bytes::joined(&self.steps)
    }

    /// The recipe of a message, which keeps every byte of it.
    ///
    /// # Errors
    ///
    /// [`Refusal::Malformed`] of the form, then [`Refusal::Steps`] of over 16 steps, then [`Refusal::Room`] of
    /// over 16,384 numbers of matrices, tables and kernels.
    ///
    /// ```
    /// use nuprikhen::recipe::Recipe;
    ///
    /// let message = [1, 2, 0, 1, 3];
    /// assert_eq!(Recipe::from_bytes(&message)?.to_bytes(), message);
    ///
    /// let refusal = Recipe::from_bytes(&[1, 2, 0, 1, 4]).unwrap_err();
    /// assert_eq!((refusal.number(), refusal.offset()), (10, Some(4)));
    /// # Ok::<(), nuprikhen::Refusal>(())
    /// ```
    pub fn from_bytes(message: &[u8]) -> Result<Recipe, Refusal> {
        // No sheet has width 0, which is refused once the message itself was not.
        let sheets = Sheets {
            kind: Kind::Straight,
            width: 0,
            height: 0,
            source: [],
            slots: [[]; 3],
            scratch: [],
        };
        let answer = reached(message, &sheets);
        match answer.number {
            6 | 10 | 11 => Err(Refusal::of(answer.number, None, answer.offset)),
            _ => Ok(Recipe {
                steps: bytes::split(message),
            }),
        }
    }

    /// Runs the recipe, and gives the result: the sheet that the last step wrote.
    ///
    /// Afterwards each slot that steps wrote holds the last one's output, the others are unchanged, and scratch
    /// is all zero. What stood in slots 1 to 3 before is never read.
    ///
    /// # Errors
    ///
    /// [`Refusal::Steps`] of over 16 steps, [`Refusal::Room`], [`Refusal::Size`] and [`Refusal::Length`] of the
    /// sheets, [`Refusal::Steps`] of no steps, and step by step [`Refusal::Slot`], [`Refusal::Kind`],
    /// [`Refusal::Shape`], [`Refusal::NotFinite`], [`Refusal::Range`].
    ///
    /// ```
    /// use nuprikhen::morphology::MorphologyOperator::Dilate;
    /// use nuprikhen::recipe::{Kind, Recipe, Sheets};
    ///
    /// // Every buffer is lent.
    /// let source = [0, 0, 0, 10, 0, 0, 0, 200, 0, 0, 0, 30];
    /// let (mut slot1, mut slot2, mut slot3, mut scratch) = ([1; 12], [2; 12], [3; 12], [7; 12]);
    /// let mut sheets = Sheets {
    ///     kind: Kind::Premultiplied,
    ///     width: 3,
    ///     height: 1,
    ///     source: &source,
    ///     slots: [&mut slot1, &mut slot2, &mut slot3],
    ///     scratch: &mut scratch,
    /// };
    /// Recipe::new().morphology(0, 2, Dilate, 1.0, 0.0).run(&mut sheets)?;
    /// assert_eq!(slot2, [0, 0, 0, 200, 0, 0, 0, 200, 0, 0, 0, 200]);
    /// assert_eq!((slot1, slot3, scratch), ([1; 12], [3; 12], [0; 12]));
    /// # Ok::<(), nuprikhen::Refusal>(())
    /// ```
    pub fn run<'a, S, B>(&self, sheets: &'a mut Sheets<S, B>) -> Result<&'a [u8], Refusal>
    where
        S: AsRef<[u8]>,
        B: AsMut<[u8]>,
    {
        let RunAnswer {
            number,
            step,
            offset,
        } = ran(&self.to_bytes(), sheets);
        match number {
            0 => Ok(sheets.slots[self.result()].as_mut()),
            _ => Err(self.refusal(number, step, offset)),
        }
    }

    /// Whether some byte of the result draws on the source. Nothing is written, and what the sheets hold does
    /// not matter.
    ///
    /// # Errors
    ///
    /// As of [`Recipe::run`].
    ///
    /// ```
    /// use nuprikhen::morphology::MorphologyOperator::Dilate;
    /// use nuprikhen::recipe::{Kind, Recipe, Sheets};
    ///
    /// let sheets = Sheets::new(Kind::Premultiplied, 1, 1, [9; 4]);
    /// let dilated = Recipe::new().morphology(0, 1, Dilate, 1.0, 0.0);
    /// assert!(dilated.reaches(&sheets)?);
    /// let noise = dilated.turbulence(2, 0.0, 0.0, 1.0, 1.0, 0.05, 0.05, 1, 7, false);
    /// assert!(!noise.reaches(&sheets)?);
    /// # Ok::<(), nuprikhen::Refusal>(())
    /// ```
    pub fn reaches<S, B>(&self, sheets: &Sheets<S, B>) -> Result<bool, Refusal>
    where
        S: AsRef<[u8]>,
        B: AsRef<[u8]>,
    {
        let answer = reached(&self.to_bytes(), sheets);
        match answer.number {
            0 => Ok(answer.reaches == 1),
            number => Err(self.refusal(number, answer.step, answer.offset)),
        }
    }

    /// The index of the working slot that the last step of an accepted recipe writes.
    fn result(&self) -> usize {
        let output = self.steps.last().map_or(1, |step| step.slots().1);
        output.saturating_sub(1).min(2) as usize
    }

    /// A refusal that knows what the refused step does.
    fn refusal(&self, number: u8, step: u8, offset: u64) -> Refusal {
        let code = self.steps.get(usize::from(step)).map_or(0, Step::code);
        Refusal::of(number, Some(RefusedStep::new(step, code)), offset)
    }
}

fn ran<S, B>(message: &[u8], sheets: &mut Sheets<S, B>) -> RunAnswer
where
    S: AsRef<[u8]>,
    B: AsMut<[u8]>,
{
    let source = sheets.source.as_ref();
    let [slot1, slot2, slot3] = sheets.slots.each_mut().map(B::as_mut);
    let scratch = sheets.scratch.as_mut();
    // SAFETY: the slices are borrowed for this call, those that it writes alone, each with its own length.
    unsafe {
        library::nup_run(
            message.as_ptr(),
            message.len(),
            sheets.kind as u8,
            sheets.width,
            sheets.height,
            source.as_ptr(),
            source.len(),
            slot1.as_mut_ptr(),
            slot1.len(),
            slot2.as_mut_ptr(),
            slot2.len(),
            slot3.as_mut_ptr(),
            slot3.len(),
            scratch.as_mut_ptr(),
            scratch.len(),
        )
    }
}

fn reached<S, B>(message: &[u8], sheets: &Sheets<S, B>) -> ReachAnswer
where
    S: AsRef<[u8]>,
    B: AsRef<[u8]>,
{
    let source = sheets.source.as_ref();
    let [slot1, slot2, slot3] = sheets.slots.each_ref().map(B::as_ref);
    let scratch = sheets.scratch.as_ref();
    // SAFETY: the slices are borrowed for this call, which only reads, each with its own length.
    unsafe {
        library::nup_reaches(
            message.as_ptr(),
            message.len(),
            sheets.kind as u8,
            sheets.width,
            sheets.height,
            source.as_ptr(),
            source.len(),
            slot1.as_ptr(),
            slot1.len(),
            slot2.as_ptr(),
            slot2.len(),
            slot3.as_ptr(),
            slot3.len(),
            scratch.as_ptr(),
            scratch.len(),
        )
    }
}
