//! Each function with a sheet of the wrong kind, which does not compile.

/// ```compile_fail,E0308
/// # use nuprikhen::{component_transfer::*, *};
/// fn transferred(f: &TransferFunction, src: SheetMut<Premultiplied>) {
///     apply(f, f, f, f, src).unwrap();
/// }
/// ```
///
/// ```compile_fail,E0308
/// # use nuprikhen::{morphology::*, *};
/// fn dilated(src: SheetMut<Straight>, scratch: &mut [u8]) {
///     apply(MorphologyOperator::Dilate, 1.0, 1.0, src, scratch).unwrap();
/// }
/// ```
///
/// ```compile_fail,E0308
/// # use nuprikhen::{convolve_matrix::*, *};
/// fn convolved(matrix: &ConvolveMatrix, src: SheetMut<Straight>, scratch: &mut [u8]) {
///     apply(matrix, src, scratch).unwrap();
/// }
/// ```
///
/// ```compile_fail,E0308
/// # use nuprikhen::{composite::*, *};
/// fn composed(a: SheetRef<Straight>, b: SheetRef<Premultiplied>, dest: SheetMut<Premultiplied>) {
///     arithmetic(0.0, 1.0, 1.0, 0.0, a, b, dest).unwrap();
/// }
/// ```
///
/// ```compile_fail,E0308
/// # use nuprikhen::{composite::*, *};
/// fn composed(a: SheetRef<Premultiplied>, b: SheetRef<Straight>, dest: SheetMut<Premultiplied>) {
///     arithmetic(0.0, 1.0, 1.0, 0.0, a, b, dest).unwrap();
/// }
/// ```
///
/// ```compile_fail,E0308
/// # use nuprikhen::{composite::*, *};
/// fn composed(a: SheetRef<Premultiplied>, b: SheetRef<Premultiplied>, dest: SheetMut<Straight>) {
///     arithmetic(0.0, 1.0, 1.0, 0.0, a, b, dest).unwrap();
/// }
/// ```
///
/// ```compile_fail,E0308
/// # use nuprikhen::{displacement_map::*, *};
/// fn moved(fe: &DisplacementMap, map: SheetRef<Premultiplied>, dest: SheetMut<Premultiplied>) {
///     apply(fe, 1.0, 1.0, map, map, dest).unwrap();
/// }
/// ```
///
/// ```compile_fail,E0308
/// # use nuprikhen::{lighting::*, *};
/// fn lit(fe: &DiffuseLighting, light: LightSource, src: SheetRef<Straight>, dest: SheetMut<Premultiplied>) {
///     diffuse_lighting(fe, light, src, dest).unwrap();
/// }
/// ```
///
/// ```compile_fail,E0308
/// # use nuprikhen::{lighting::*, *};
/// fn lit(fe: &SpecularLighting, light: LightSource, src: SheetRef<Straight>, dest: SheetMut<Straight>) {
///     specular_lighting(fe, light, src, dest).unwrap();
/// }
/// ```
///
/// ```compile_fail,E0308
/// # use nuprikhen::{turbulence::*, *};
/// fn noise(fe: &Turbulence, dest: SheetMut<Premultiplied>) {
///     apply(fe, 0.0, 0.0, 1.0, 1.0, dest).unwrap();
/// }
/// ```
struct WrongKinds;
