//! Must not compile: an image written to while its records are gone through.
use stilefray::{image, Refusal};

fn main() -> Result<(), Refusal> {
    let mut chip = [255; 256];
    image::append_key(&mut chip, 64, 4, 1, b"gains")?;
    for record in image::records(&chip, 64, 4)?.flatten() {
        image::invalidate_key(&mut chip, 64, 4, record.key)?;
    }
    Ok(())
}
