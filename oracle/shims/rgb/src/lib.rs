//! The pixel type of rgb and its view of a byte slice.

/// Four bytes in memory order r, g, b, a.
#[repr(C)]
#[derive(Clone, Copy, Debug, Default, PartialEq, Eq)]
pub struct RGBA8 {
    pub r: u8,
    pub g: u8,
    pub b: u8,
    pub a: u8,
}

unsafe impl bytemuck::Pod for RGBA8 {}

/// Bytes seen as pixels.
pub trait FromSlice {
    fn as_rgba(&self) -> &[RGBA8];
    fn as_rgba_mut(&mut self) -> &mut [RGBA8];
}

impl FromSlice for [u8] {
    fn as_rgba(&self) -> &[RGBA8] {
        assert_eq!(self.len() % 4, 0);
        // `RGBA8` is four bytes of alignment 1.
        unsafe { std::slice::from_raw_parts(self.as_ptr().cast(), self.len() / 4) }
    }

    fn as_rgba_mut(&mut self) -> &mut [RGBA8] {
        assert_eq!(self.len() % 4, 0);
        bytemuck::cast_slice_mut(self)
    }
}
