//! Must not compile: a value that lies in the image, used after the image was written to.
use stilefray::{image, Refusal};

fn main() -> Result<(), Refusal> {
    let mut chip = [255; 256];
    image::append_key(&mut chip, 64, 4, 1, b"gains")?;
    let value = image::value(&chip, 64, 4, 1)?;
    image::zeroise_key(&mut chip, 64, 4, 1)?;
    assert_eq!(value, b"gains");
    Ok(())
}
