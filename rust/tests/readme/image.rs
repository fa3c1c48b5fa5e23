use image::RgbaImage;
use nuprikhen::Refusal;
use nuprikhen::recipe::{Kind, Recipe, Sheets};

/// The picture after a recipe that ends in straight colour, which is what an RgbaImage holds.
fn filtered(recipe: &Recipe, picture: &RgbaImage) -> Result<RgbaImage, Refusal> {
    let (width, height) = picture.dimensions();
    let mut sheets = Sheets::new(Kind::Straight, width, height, picture.as_raw());
    let bytes = recipe.run(&mut sheets)?.to_vec();
    Ok(RgbaImage::from_raw(width, height, bytes).expect("as many bytes as before"))
}
