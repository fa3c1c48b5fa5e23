//! usvg's filter types, cut down to what the nine files read.

use crate::{Color, NonZeroF32, PositiveF32};

#[derive(Clone, Copy, Debug, PartialEq, Eq)]
pub enum MorphologyOperator {
    Erode,
    Dilate,
}

#[derive(Clone, Debug)]
pub enum ColorMatrixKind {
    Matrix(Vec<f32>),
    Saturate(PositiveF32),
    HueRotate(f32),
    LuminanceToAlpha,
}

#[derive(Clone, Debug)]
pub enum TransferFunction {
    Identity,
    Table(Vec<f32>),
    Discrete(Vec<f32>),
    Linear { slope: f32, intercept: f32 },
    Gamma { amplitude: f32, exponent: f32, offset: f32 },
}

#[derive(Clone, Copy, Debug, PartialEq, Eq)]
pub enum EdgeMode {
    None,
    Duplicate,
    Wrap,
}

#[derive(Clone, Copy, Debug, PartialEq, Eq)]
pub enum ColorChannel {
    R,
    G,
    B,
    A,
}

#[derive(Clone, Copy, Debug)]
pub struct DistantLight {
    pub azimuth: f32,
    pub elevation: f32,
}

#[derive(Clone, Copy, Debug)]
pub struct PointLight {
    pub x: f32,
    pub y: f32,
    pub z: f32,
}

#[derive(Clone, Copy, Debug)]
pub struct SpotLight {
    pub x: f32,
    pub y: f32,
    pub z: f32,
    pub points_at_x: f32,
    pub points_at_y: f32,
    pub points_at_z: f32,
    pub specular_exponent: PositiveF32,
    pub limiting_cone_angle: Option<f32>,
}

#[derive(Clone, Copy, Debug)]
pub enum LightSource {
    DistantLight(DistantLight),
    PointLight(PointLight),
    SpotLight(SpotLight),
}

/// A struct with public fields, to be made here, and usvg's accessors, which give the small fields
/// by value and the others by reference.
macro_rules! primitive {
    ($name:ident { $($field:ident: $kind:ty),* ; $($large:ident: $lent:ty),* }) => {
        #[derive(Clone, Debug)]
        pub struct $name {
            $(pub $field: $kind,)*
            $(pub $large: $lent,)*
        }

        impl $name {
            $(pub fn $field(&self) -> $kind {
                self.$field
            })*

            $(pub fn $large(&self) -> &$lent {
                &self.$large
            })*
        }
    };
}

primitive!(ComponentTransfer {
    ;
    func_r: TransferFunction,
    func_g: TransferFunction,
    func_b: TransferFunction,
    func_a: TransferFunction
});

primitive!(ConvolveMatrixData {
    target_x: u32,
    target_y: u32,
    columns: u32,
    rows: u32;
    data: Vec<f32>
});

impl ConvolveMatrixData {
    /// The value at column `x` of row `y`.
    pub fn get(&self, x: u32, y: u32) -> f32 {
        self.data[(y * self.columns + x) as usize]
    }
}

primitive!(ConvolveMatrix {
    divisor: NonZeroF32,
    bias: f32,
    edge_mode: EdgeMode,
    preserve_alpha: bool;
    matrix: ConvolveMatrixData
});

primitive!(DisplacementMap {
    scale: f32,
    x_channel_selector: ColorChannel,
    y_channel_selector: ColorChannel;
});

primitive!(DiffuseLighting {
    surface_scale: f32,
    diffuse_constant: f32,
    lighting_color: Color;
});

primitive!(SpecularLighting {
    surface_scale: f32,
    specular_constant: f32,
    specular_exponent: f32,
    lighting_color: Color;
});
