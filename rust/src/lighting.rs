//! resvg's lighting.rs, without spot lights.

use crate::{Premultiplied, Refusal, SheetKind, SheetMut, SheetRef, Straight, library};

/// A light source.
#[derive(Clone, Copy, Debug, PartialEq)]
pub enum LightSource {
    /// The direction x, y, z that the light comes from; the exact sum of their squares is within 1/1,024
    /// of 1.
    Distant(f32, f32, f32),
    /// The place x, y, z of the light, in pixels, -65,536 to 65,536.
    Point(f32, f32, f32),
}

impl LightSource {
    /// The number of the case, and x, y and z.
    pub(crate) fn parts(self) -> (u8, f32, f32, f32) {
        match self {
            LightSource::Distant(x, y, z) => (0, x, y, z),
            LightSource::Point(x, y, z) => (1, x, y, z),
        }
    }
}

/// A light's colour.
#[derive(Clone, Copy, Debug, PartialEq, Eq, Hash)]
pub struct Color {
    /// Red, 0 to 255.
    pub red: u8,
    /// Green, 0 to 255.
    pub green: u8,
    /// Blue, 0 to 255.
    pub blue: u8,
}

/// A surface that throws light back in all directions.
#[derive(Clone, Copy, Debug, PartialEq)]
pub struct DiffuseLighting {
    /// The height of the surface where alpha is 255, -256 to 256.
    pub surface_scale: f32,
    /// How much light it throws back, 0 to 256.
    pub diffuse_constant: f32,
    /// The light's colour.
    pub lighting_color: Color,
}

/// A surface that throws light back like a mirror.
#[derive(Clone, Copy, Debug, PartialEq)]
pub struct SpecularLighting {
    /// The height of the surface where alpha is 255, -256 to 256.
    pub surface_scale: f32,
    /// How much light it throws back, 0 to 256.
    pub specular_constant: f32,
    /// 1.
    pub specular_exponent: f32,
    /// The light's colour.
    pub lighting_color: Color,
}

/// Renders a diffuse lighting of the surface that `src`'s alpha makes.
///
/// `src` can be of any kind, since only the alpha channel is used. `dest` is opaque. Below 3 x 3 it is only
/// cleared.
///
/// # Errors
///
/// [`Refusal::Length`] where the sheets differ in size; [`Refusal::NotFinite`] and [`Refusal::Range`] of the
/// numbers, as [`DiffuseLighting`] and [`LightSource`] have them.
///
/// ```
/// use nuprikhen::lighting::{self, Color, DiffuseLighting, LightSource};
/// use nuprikhen::{SheetMut, SheetRef, Straight};
///
/// let fe = DiffuseLighting {
///     surface_scale: 1.0,
///     diffuse_constant: 1.0,
///     lighting_color: Color { red: 255, green: 255, blue: 255 },
/// };
/// let src = SheetRef::<Straight>::new(3, 3, &[0; 36])?;
/// let mut bytes = [9; 36];
/// let above = LightSource::Distant(0.0, 0.0, 1.0);
/// lighting::diffuse_lighting(&fe, above, src, SheetMut::new(3, 3, &mut bytes)?)?;
/// assert_eq!(bytes, [255; 36]);
/// # Ok::<(), nuprikhen::Refusal>(())
/// ```
pub fn diffuse_lighting<K: SheetKind>(
    fe: &DiffuseLighting,
    light_source: LightSource,
    src: SheetRef<K>,
    dest: SheetMut<Straight>,
) -> Result<(), Refusal> {
    src.is_of_size(dest.width(), dest.height())?;
    let dest = dest.into_bytes();
    let (kind, x, y, z) = light_source.parts();
    // SAFETY: both slices are borrowed for this call, `dest` alone, each with its own length.
    let answer = unsafe {
        library::nup_diffuse_lighting(
            src.width(),
            src.height(),
            kind,
            x,
            y,
            z,
            fe.surface_scale,
            fe.diffuse_constant,
            fe.lighting_color.red,
            fe.lighting_color.green,
            fe.lighting_color.blue,
            src.bytes().as_ptr(),
            src.bytes().len(),
            dest.as_mut_ptr(),
            dest.len(),
        )
    };
    answer.told()
}

/// Renders a specular lighting of the surface that `src`'s alpha makes.
///
/// As [`diffuse_lighting`], but the alpha of `dest` is the largest of its colours.
///
/// # Errors
///
/// [`Refusal::Length`] where the sheets differ in size; [`Refusal::NotFinite`] and [`Refusal::Range`] of the
/// numbers, as [`SpecularLighting`] and [`LightSource`] have them.
///
/// ```
/// use nuprikhen::lighting::{self, Color, LightSource, SpecularLighting};
/// use nuprikhen::{SheetMut, SheetRef, Straight};
///
/// let fe = SpecularLighting {
///     surface_scale: 1.0,
///     specular_constant: 1.0,
///     specular_exponent: 1.0,
///     lighting_color: Color { red: 255, green: 255, blue: 255 },
/// };
/// let src = SheetRef::<Straight>::new(3, 3, &[0; 36])?;
/// let mut bytes = [9; 36];
/// let below = LightSource::Distant(0.0, 0.0, -1.0);
/// lighting::specular_lighting(&fe, below, src, SheetMut::new(3, 3, &mut bytes)?)?;
/// assert_eq!(bytes, [0; 36]);
/// # Ok::<(), nuprikhen::Refusal>(())
/// ```
pub fn specular_lighting<K: SheetKind>(
    fe: &SpecularLighting,
    light_source: LightSource,
    src: SheetRef<K>,
    dest: SheetMut<Premultiplied>,
) -> Result<(), Refusal> {
    src.is_of_size(dest.width(), dest.height())?;
    let dest = dest.into_bytes();
    let (kind, x, y, z) = light_source.parts();
    // SAFETY: both slices are borrowed for this call, `dest` alone, each with its own length.
    let answer = unsafe {
        library::nup_specular_lighting(
            src.width(),
            src.height(),
            kind,
            x,
            y,
            z,
            fe.surface_scale,
            fe.specular_constant,
            fe.specular_exponent,
            fe.lighting_color.red,
            fe.lighting_color.green,
            fe.lighting_color.blue,
            src.bytes().as_ptr(),
            src.bytes().len(),
            dest.as_mut_ptr(),
            dest.len(),
        )
    };
    answer.told()
}
