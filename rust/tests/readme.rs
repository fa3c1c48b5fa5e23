//! The README's block about the `image` crate, compiled and run with a small stand-in for it. (Its other
//! blocks are documentation tests.)

#![cfg(feature = "alloc")]

use nuprikhen::color_matrix::ColorMatrix;
use nuprikhen::morphology::MorphologyOperator;

/// As much of the `image` crate as the block uses.
mod image {
    #[derive(Debug, PartialEq)]
    pub struct RgbaImage {
        width: u32,
        height: u32,
        bytes: Vec<u8>,
    }

    impl RgbaImage {
        pub fn from_raw(width: u32, height: u32, bytes: Vec<u8>) -> Option<RgbaImage> {
            let image = RgbaImage {
                width,
                height,
                bytes,
            };
            (image.bytes.len() as u32 >= 4 * width * height).then_some(image)
        }

        pub fn dimensions(&self) -> (u32, u32) {
            (self.width, self.height)
        }

        pub fn as_raw(&self) -> &Vec<u8> {
            &self.bytes
        }
    }
}

include!("readme/image.rs");

#[test]
fn the_block_is_the_file() {
    let readme = include_str!("../README.md");
    let blocks: Vec<&str> = readme.split("```rust,ignore\n").skip(1).collect();
    let ends: Vec<&str> = blocks
        .iter()
        .filter_map(|block| block.split("```").next())
        .collect();
    assert_eq!(ends, [include_str!("readme/image.rs")]);
}

fn picture(width: u32, height: u32, bytes: &[u8]) -> RgbaImage {
    RgbaImage::from_raw(width, height, bytes.to_vec()).expect("a picture")
}

#[test]
fn a_picture_goes_through_a_recipe() {
    let grey = Recipe::new().color_matrix(0, 1, &ColorMatrix::Saturate(0.0));
    let red = picture(2, 1, &[255, 0, 0, 99, 0, 0, 0, 255]);
    let seen = picture(2, 1, &[54, 54, 54, 99, 0, 0, 0, 255]);
    assert_eq!(filtered(&grey, &red), Ok(seen));
    assert_eq!(filtered(&grey, &picture(0, 0, &[])), Err(Refusal::Size));
    let dilated = Recipe::new().morphology(0, 1, MorphologyOperator::Dilate, 1.0, 1.0);
    let refusal = filtered(&dilated, &red).expect_err("a refusal");
    assert!(matches!(refusal, Refusal::Kind { .. }), "{refusal}");
}
