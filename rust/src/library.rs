//! The C functions, as include/nuprikhen.h has them. A slice is its start, never null, and its number
//! of elements.

use crate::Refusal;

/// The number of the answer, 0 when it is done, and the index of the step, which is always 0: no step is
/// told of a single call.
#[allow(dead_code)]
#[repr(C)]
pub struct Answer {
    number: u8,
    step: u8,
}

/// The answer to a message: the offset is where the wrong number begins, of number 10.
#[cfg(feature = "alloc")]
#[repr(C)]
pub struct RunAnswer {
    pub number: u8,
    pub step: u8,
    pub offset: u64,
}

/// The same, and 1 where the result reaches slot 0.
#[cfg(feature = "alloc")]
#[repr(C)]
pub struct ReachAnswer {
    pub number: u8,
    pub step: u8,
    pub reaches: u8,
    pub offset: u64,
}

impl Answer {
    pub fn told(self) -> Result<(), Refusal> {
        match self.number {
            0 => Ok(()),
            number => Err(Refusal::of(number, None, 0)),
        }
    }
}

unsafe extern "C" {
    pub fn nup_morphology(
        width: u32,
        height: u32,
        op: u8,
        rx: f32,
        ry: f32,
        src: *mut u8,
        src_len: usize,
        scratch: *mut u8,
        scratch_len: usize,
    ) -> Answer;

    pub fn nup_color_matrix(
        width: u32,
        height: u32,
        m: *const f32,
        m_len: usize,
        src: *mut u8,
        src_len: usize,
    ) -> Answer;

    pub fn nup_saturate(width: u32, height: u32, v: f32, src: *mut u8, src_len: usize) -> Answer;

    pub fn nup_hue_rotate(
        width: u32,
        height: u32,
        cosine: f32,
        sine: f32,
        src: *mut u8,
        src_len: usize,
    ) -> Answer;

    pub fn nup_luminance_to_alpha(width: u32, height: u32, src: *mut u8, src_len: usize) -> Answer;

    pub fn nup_component_transfer(
        width: u32,
        height: u32,
        kind_r: u8,
        r: *const f32,
        r_len: usize,
        kind_g: u8,
        g: *const f32,
        g_len: usize,
        kind_b: u8,
        b: *const f32,
        b_len: usize,
        kind_a: u8,
        a: *const f32,
        a_len: usize,
        src: *mut u8,
        src_len: usize,
    ) -> Answer;

    pub fn nup_arithmetic(
        width: u32,
        height: u32,
        k1: f32,
        k2: f32,
        k3: f32,
        k4: f32,
        src1: *const u8,
        src1_len: usize,
        src2: *const u8,
        src2_len: usize,
        dest: *mut u8,
        dest_len: usize,
    ) -> Answer;

    pub fn nup_convolve_matrix(
        width: u32,
        height: u32,
        columns: u32,
        rows: u32,
        target_x: u32,
        target_y: u32,
        kernel: *const f32,
        kernel_len: usize,
        divisor: f32,
        bias: f32,
        edge: u8,
        preserve_alpha: u8,
        src: *mut u8,
        src_len: usize,
        scratch: *mut u8,
        scratch_len: usize,
    ) -> Answer;

    pub fn nup_displacement_map(
        width: u32,
        height: u32,
        x_channel: u8,
        y_channel: u8,
        sx: f32,
        sy: f32,
        scale: f32,
        src: *const u8,
        src_len: usize,
        map: *const u8,
        map_len: usize,
        dest: *mut u8,
        dest_len: usize,
    ) -> Answer;

    pub fn nup_diffuse_lighting(
        width: u32,
        height: u32,
        light: u8,
        x: f32,
        y: f32,
        z: f32,
        surface_scale: f32,
        diffuse_constant: f32,
        red: u8,
        green: u8,
        blue: u8,
        src: *const u8,
        src_len: usize,
        dest: *mut u8,
        dest_len: usize,
    ) -> Answer;

    pub fn nup_turbulence(
        width: u32,
        height: u32,
        offset_x: f64,
        offset_y: f64,
        sx: f64,
        sy: f64,
        base_frequency_x: f64,
        base_frequency_y: f64,
        num_octaves: u32,
        seed: i32,
        stitch_tiles: u8,
        kind: u8,
        dest: *mut u8,
        dest_len: usize,
    ) -> Answer;

    pub fn nup_specular_lighting(
        width: u32,
        height: u32,
        light: u8,
        x: f32,
        y: f32,
        z: f32,
        surface_scale: f32,
        specular_constant: f32,
        specular_exponent: f32,
        red: u8,
        green: u8,
        blue: u8,
        src: *const u8,
        src_len: usize,
        dest: *mut u8,
        dest_len: usize,
    ) -> Answer;

    #[cfg(feature = "alloc")]
    pub fn nup_run(
        message: *const u8,
        message_len: usize,
        kind: u8,
        width: u32,
        height: u32,
        source: *const u8,
        source_len: usize,
        slot1: *mut u8,
        slot1_len: usize,
        slot2: *mut u8,
        slot2_len: usize,
        slot3: *mut u8,
        slot3_len: usize,
        scratch: *mut u8,
        scratch_len: usize,
    ) -> RunAnswer;

    #[cfg(feature = "alloc")]
    pub fn nup_reaches(
        message: *const u8,
        message_len: usize,
        kind: u8,
        width: u32,
        height: u32,
        source: *const u8,
        source_len: usize,
        slot1: *const u8,
        slot1_len: usize,
        slot2: *const u8,
        slot2_len: usize,
        slot3: *const u8,
        slot3_len: usize,
        scratch: *const u8,
        scratch_len: usize,
    ) -> ReachAnswer;
}
