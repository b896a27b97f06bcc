//! A look into the image of a chip. From here on it is letter for letter what docs/WORKSHOP.md shows.

use stilefray::{image, Refusal};

/// The first gain of key 101, read where it lies in the image, which has 4 regions of 64 bytes.
pub fn first_gain(chip: &[u8]) -> Result<Option<u8>, Refusal> {
    let gains = image::value(chip, 64, 4, 101)?;
    Ok(gains.first().copied())
}

/// What somebody should see to: each live record whose checksum is wrong, and the bad place that ends the list.
pub fn faults(chip: &[u8]) -> Result<Vec<String>, Refusal> {
    let mut faults = Vec::new();
    for record in image::records(chip, 64, 4)? {
        match record {
            Ok(record) if record.live && !record.checksum_right => faults.push(format!("key {:016x}: wrong checksum", record.key)),
            Ok(_) => {}
            Err(bad) => faults.push(bad.to_string()),
        }
    }
    Ok(faults)
}
