//! The walk of a region (R4) and the look at a record. From here on it is letter for letter what docs/WORKSHOP.md shows.

/// Calls `met` with the place and the length of each record, and says where the walk stops and whether that place is bad.
pub fn walk(region: &[u8], mut met: impl FnMut(usize, usize)) -> (usize, bool) {
    let mut place = 0;
    while region.len() - place >= 15 && region[place] != 255 {
        let length = (region[place + 1] % 16) as usize * 256 + region[place + 2] as usize;
        if region[place] != 1 || length < 15 || length > region.len() - place {
            return (place, true);
        }
        met(place, length);
        place += length;
    }
    (place, false)
}

/// Whether a record is live, and whether its checksum is right (a dead one's is not looked at).
pub fn live_and_right(record: &[u8]) -> (bool, bool) {
    let (summed, sum) = record.split_at(record.len() - 4);
    (record[1] >= 128, stilefray::checksum(summed).to_le_bytes() == sum)
}
