//! Must not compile: a record's value used after its image is gone. (The iterator's end is no matter: values are lent by the image.)
use stilefray::{image, Refusal};

fn main() -> Result<(), Refusal> {
    let record = {
        let mut chip = [255; 256];
        image::append_key(&mut chip, 64, 4, 1, b"gains")?;
        image::records(&chip, 64, 4)?.flatten().next()
    };
    assert_eq!(record.map(|record| record.value), Some(&b"gains"[..]));
    Ok(())
}
