//! The one function that iir_blur.rs takes from bytemuck.

/// A type whose values are exactly its bytes, with no padding.
///
/// # Safety
///
/// Every pattern of bytes must be a value, and alignment 1 is assumed below.
pub unsafe trait Pod: Copy + 'static {}

unsafe impl Pod for u8 {}

/// The same bytes as a slice of another type.
pub fn cast_slice_mut<A: Pod, B: Pod>(a: &mut [A]) -> &mut [B] {
    assert_eq!(align_of::<B>(), 1);
    let bytes = size_of_val(a);
    assert_eq!(bytes % size_of::<B>(), 0);
    // Both types are plain bytes, `B` needs no alignment, and the length is exact.
    unsafe { std::slice::from_raw_parts_mut(a.as_mut_ptr().cast(), bytes / size_of::<B>()) }
}
