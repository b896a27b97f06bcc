//! A look into images (R16): a key's value where it lies is what get copies, and the records are those of a straight reading of R3, R4 and
//! R16 below; on chips that the store wrote, on damaged ones, and on any bytes.
mod common;
#[path = "look/page.rs"]
mod page;
use common::{used, Numbers, N, S};
use std::ops::Range;
use stilefray::image::{self, BadPlace, Entry, Place, Record, Shown};
use stilefray::Refusal::{self, BadGeometry, BadKey, CorruptData, InvalidCheckSum, KeyNotFound, UnsupportedVersion};

/// The longest value that a record can say it has, and so a buffer that is never too small: 4,095 is more than that.
const LONGEST: usize = 4095;

/// R3.5, bit by bit.
fn sum_of(bytes: &[u8]) -> u32 {
    let shifted = |sum: u32| sum << 1 ^ if sum >> 31 == 1 { 0x04C1_1DB7 } else { 0 };
    !bytes.iter().fold(0, |sum, byte| (0..8).fold(sum ^ u32::from(*byte) << 24, |sum, _| shifted(sum)))
}

/// A record as the rules read it: its value by its places in the image.
#[derive(Clone, Debug, PartialEq)]
struct Read {
    region: usize,
    place: usize,
    live: bool,
    key: u64,
    value: Range<usize>,
    right: bool,
}

impl Read {
    /// The same of a record that the crate gave. Its value must be a part of the image itself.
    fn of(record: &Record<'_>, image: &[u8]) -> Read {
        let Record { region, place, live, key, value, checksum_right: right, .. } = *record;
        Read { region, place, live, key, value: places(value, image), right }
    }
}

/// Where in the image a part of it lies.
fn places(part: &[u8], image: &[u8]) -> Range<usize> {
    let (lies, all) = (part.as_ptr_range(), image.as_ptr_range());
    assert!(all.start <= lies.start && lies.end <= all.end, "no part of the image");
    lies.start as usize - all.start as usize..lies.end as usize - all.start as usize
}

/// What stands at a place of a region (R4.2 to R4.6): a record and the place behind it, the end, or what a bad place is refused by.
fn stands(image: &[u8], s: usize, region: usize, place: usize) -> Result<Option<(Read, usize)>, Refusal> {
    let bytes = &image[region * s..][..s];
    if place > s || s - place < 15 || bytes[place] == 255 {
        return Ok(None);
    }
    let length = usize::from(bytes[place + 1] % 16) * 256 + usize::from(bytes[place + 2]);
    if bytes[place] != 1 {
        return Err(UnsupportedVersion);
    }
    if length < 15 || length > s - place {
        return Err(CorruptData);
    }
    let (summed, sum) = bytes[place..place + length].split_at(length - 4);
    let key = summed[3..11].iter().fold(0, |key, byte| key * 256 + u64::from(*byte));
    let value = region * s + place + 11..region * s + place + length - 4;
    let read = Read { region, place, live: summed[1] >= 128, key, value, right: sum_of(summed).to_le_bytes() == sum };
    Ok(Some((read, place + length)))
}

/// Every record in region and place order, and the bad place that ends them (R16.6).
fn listed(image: &[u8], s: usize, n: usize) -> (Vec<Read>, Option<BadPlace>) {
    let mut reads = Vec::new();
    for region in 0..n {
        let mut place = 0;
        loop {
            match stands(image, s, region, place) {
                Ok(Some((read, behind))) => {
                    reads.push(read);
                    place = behind;
                }
                Ok(None) => break,
                Err(refusal) => return (reads, Some(BadPlace { region, place, refusal })),
            }
        }
    }
    (reads, None)
}

/// The same by the crate's iterator.
fn iterated(image: &[u8], s: usize, n: usize) -> (Vec<Read>, Option<BadPlace>) {
    let (mut records, mut reads) = (image::records(image, s, n).unwrap(), Vec::new());
    let mut bad = None;
    for record in records.by_ref() {
        assert_eq!(bad, None, "something comes after a bad place");
        match record {
            Ok(record) => reads.push(Read::of(&record, image)),
            Err(place) => bad = Some(place),
        }
    }
    assert!((0..3).all(|_| records.next().is_none()), "it goes on after its end");
    (reads, bad)
}

/// The keys that the tests store: some share their low bytes, and so a home region.
const KEYS: [u64; 14] = [1, 2, 3, 4, 5, 6, 7, 8, 9, 65_536, 65_537, 1 << 63, u64::MAX - 1, 0x0123_4567_89AB_CDEF];

/// A chip after some calls.
fn made(numbers: &mut Numbers, s: usize, n: usize) -> Vec<u8> {
    let mut chip = vec![255; s * n];
    for _ in 0..numbers.below(16 * n) {
        let key = KEYS[numbers.below(KEYS.len())];
        let longest = if numbers.below(4) == 0 { s - 15 } else { 20 };
        let value = vec![numbers.next() as u8; numbers.below(longest.min(4079) + 1)];
        // Refused or not, the chip is one.
        let _ = match numbers.below(8) {
            0 => image::invalidate_key(&mut chip, s, n, key),
            1 => image::zeroise_key(&mut chip, s, n, key),
            2 => image::garbage_collect(&mut chip, s, n).map(drop),
            _ => image::append_key(&mut chip, s, n, key, &value),
        };
    }
    chip
}

/// The same with a few bytes made others, half of them in a record's first three or last.
fn damaged(numbers: &mut Numbers, s: usize, n: usize) -> Vec<u8> {
    let mut chip = made(numbers, s, n);
    let (reads, _) = listed(&chip, s, n);
    for _ in 0..1 + numbers.below(4) {
        let place = match numbers.below(2) {
            1 if !reads.is_empty() => {
                let read = &reads[numbers.below(reads.len())];
                [read.value.start - 11, read.value.start - 10, read.value.start - 9, read.value.end + 3][numbers.below(4)]
            }
            _ => numbers.below(s * n),
        };
        chip[place] = [0, 1, 2, 14, 15, 16, 128, 143, 255, numbers.next() as u8][numbers.below(10)];
    }
    chip
}

/// Records made up of any bytes, one behind the other, some with a right checksum.
fn forged(numbers: &mut Numbers, s: usize, n: usize) -> Vec<u8> {
    let mut chip: Vec<u8> = (0..s * n).map(|_| numbers.next() as u8).collect();
    for region in chip.chunks_mut(s) {
        let mut rest = region;
        while rest.len() >= 15 && numbers.below(16) > 0 {
            let length = 15 + numbers.below(rest.len() - 14) % 40;
            let said = if numbers.below(40) == 0 { [0, 14, rest.len() + 1, 4095][numbers.below(4)] } else { length };
            rest[..3].copy_from_slice(&[1, (numbers.next() as u8 & 0xF0) | (said / 256) as u8, said as u8]);
            rest[3..11].copy_from_slice(&KEYS[numbers.below(KEYS.len())].to_be_bytes());
            let (summed, sum) = rest[..length].split_at_mut(length - 4);
            if numbers.below(2) == 0 {
                sum.copy_from_slice(&sum_of(summed).to_le_bytes());
            }
            rest = &mut rest[length..];
        }
        rest.fill(if numbers.below(4) > 0 { 255 } else { 2 });
    }
    chip
}

/// Images of a geometry, of every kind.
fn images(numbers: &mut Numbers, s: usize, n: usize) -> Vec<Vec<u8>> {
    let mut images: Vec<_> = [255, 0, 1, 15, 128].map(|byte| vec![byte; s * n]).into();
    images.push((0..s * n).map(|_| numbers.next() as u8).collect());
    for make in [made, damaged, damaged, forged, forged] {
        images.push(make(numbers, s, n));
    }
    images
}

/// Every size up to 80 with up to five regions, and some up to the largest.
fn geometries() -> impl Iterator<Item = (usize, usize)> {
    let small = (64..=80).flat_map(|s| (1..=5).map(move |n| (s, n)));
    small.chain([(64, 64), (100, 7), (255, 3), (256, 4), (257, 2), (1024, 16), (4095, 3), (4096, 1), (4096, 4), (4096, 64)])
}

/// Get and value of a key, held against each other; whether there was one.
fn value_is_what_get_copies(image: &[u8], s: usize, n: usize, key: u64) -> Result<usize, Refusal> {
    let mut buffer = [0xEE; LONGEST];
    let (got, lent) = (image::get_key(image, s, n, key, &mut buffer), image::value(image, s, n, key));
    assert_eq!(lent, got.map(|length| &buffer[..length]), "key {key}, s {s}, n {n}");
    lent.map(|value| places(value, image).len())
}

#[test]
fn a_value_is_what_get_copies_and_lies_in_the_image() {
    let mut numbers = Numbers(11);
    let mut seen = [0; 13];
    for (s, n) in geometries() {
        for image in images(&mut numbers, s, n) {
            let met = listed(&image, s, n).0.into_iter().map(|read| read.key).take(40);
            let others = [0, u64::MAX, 10, 1 << 32, numbers.next()];
            for key in met.chain(KEYS).chain(others).collect::<Vec<_>>() {
                let answer = value_is_what_get_copies(&image, s, n, key);
                seen[answer.map_or_else(|refusal| refusal.number(), |length| u32::from(length == 0) * 12) as usize] += 1;
            }
        }
    }
    let refusals: [Refusal; 5] = [BadKey, KeyNotFound, UnsupportedVersion, CorruptData, InvalidCheckSum];
    assert!(refusals.iter().all(|refusal| seen[refusal.number() as usize] > 100), "{seen:?}");
    assert!(seen[0] > 1000 && seen[12] > 100, "values, and empty ones: {seen:?}");
    assert_eq!([seen[1], seen[3], seen[5], seen[6], seen[9], seen[11]], [0; 6], "BufferTooSmall is 9: {seen:?}");
}

#[test]
fn the_records_are_those_of_a_straight_reading() {
    let mut numbers = Numbers(12);
    let (mut kinds, mut sevens, mut eights, mut through) = ([0; 4], 0, 0, 0);
    for (s, n) in geometries() {
        for image in images(&mut numbers, s, n) {
            let (reads, bad) = listed(&image, s, n);
            assert_eq!(iterated(&image, s, n), (reads.clone(), bad), "s {s}, n {n}, {image:?}");
            reads.iter().for_each(|read| kinds[usize::from(read.live) * 2 + usize::from(read.right)] += 1);
            match bad.map(|bad| bad.refusal) {
                Some(UnsupportedVersion) => sevens += 1,
                Some(CorruptData) => eights += 1,
                _ => through += 1,
            }
        }
    }
    assert!(kinds.iter().all(|count| *count > 300), "dead, dead and right, live, live and right: {kinds:?}");
    assert!(sevens > 100 && eights > 100 && through > 100, "{sevens} {eights} {through}");
}

/// What `record_at` must say of a place of a chip, by the straight reading.
fn shown_is_right(image: &[u8], s: usize, n: usize, region: usize, place: usize) {
    let Shown { entry, next } = image::record_at(image, s, n, region, place).unwrap();
    let at = format!("region {region}, place {place}, s {s}, n {n}, {image:?}");
    if region >= n {
        assert_eq!((entry, next), (Entry::NoRegion, Place { region, place }), "{at}");
        return;
    }
    let onward = Place { region: region + 1, place: 0 };
    match stands(image, s, region, place) {
        Ok(None) => assert_eq!((entry, next), (Entry::End, onward), "{at}"),
        Err(refusal) => assert_eq!((entry, next), (Entry::Bad(BadPlace { region, place, refusal }), onward), "{at}"),
        Ok(Some((read, behind))) => {
            let Entry::Record(record) = entry else { panic!("{entry:?} at {at}") };
            assert_eq!((Read::of(&record, image), next), (read, Place { region, place: behind }), "{at}");
        }
    }
}

#[test]
fn every_place_of_a_region_and_beyond() {
    let mut numbers = Numbers(13);
    let far = [1 << 32, usize::MAX / 64, usize::MAX - 63, usize::MAX - 14, usize::MAX];
    for (s, n) in (64..=80).step_by(3).flat_map(|s| (1..=3).map(move |n| (s, n))) {
        for image in images(&mut numbers, s, n) {
            for region in (0..n + 2).chain(far) {
                (0..s + 3).chain(far).for_each(|place| shown_is_right(&image, s, n, region, place));
            }
        }
    }
}

/// A pass by `record_at` alone: the records, the regions that ended, and the calls that it took.
fn pass(image: &[u8], s: usize, n: usize) -> (usize, usize, usize) {
    let (mut records, mut ends, mut calls) = (0, 0, 0);
    let mut at = Place { region: 0, place: 0 };
    loop {
        let Shown { entry, next } = image::record_at(image, s, n, at.region, at.place).unwrap();
        calls += 1;
        match entry {
            Entry::Record(_) => records += 1,
            Entry::End => ends += 1,
            Entry::Bad(_) | Entry::NoRegion => return (records, ends, calls),
        }
        at = next;
    }
}

#[test]
fn a_pass_is_one_walk_of_the_image() {
    let mut numbers = Numbers(14);
    for (s, n) in geometries() {
        for image in images(&mut numbers, s, n) {
            let (records, ends, calls) = pass(&image, s, n);
            let (reads, bad) = listed(&image, s, n);
            assert_eq!((records, ends), (reads.len(), bad.map_or(n, |bad| bad.region)));
            assert_eq!(calls, records + ends + 1, "one call a record, one a region, and the last");
        }
    }
}

#[test]
fn on_a_chip_that_the_store_wrote_live_records_are_the_values() {
    let mut numbers = Numbers(15);
    for (s, n) in geometries().flat_map(|geometry| [geometry; 3]) {
        let image = made(&mut numbers, s, n);
        let records: Vec<_> = image::records(&image, s, n).unwrap().map(Result::unwrap).filter(|record| record.live).collect();
        for key in KEYS {
            let live: Vec<_> = records.iter().filter(|record| record.key == key).collect();
            match (image::value(&image, s, n, key), &live[..]) {
                (Ok(value), [record]) => assert!(record.checksum_right && std::ptr::eq(record.value, value)),
                (answer, []) => assert_eq!(answer, Err(KeyNotFound)),
                (answer, live) => panic!("{answer:?} {live:?}"),
            }
        }
    }
}

#[test]
fn images_that_are_no_chip_are_refused() {
    let half = usize::MAX / 2 + 1; // twice that is 0, in 64 bits
    let shapes =
        [(63, 4, 252), (4097, 1, 4097), (64, 0, 0), (64, 65, 64 * 65), (0, 0, 0), (0, 4, 0), (64, 4, 0), (half, 2, 0), (2, half, 0)];
    let lengths = [(64, 4, 255), (64, 4, 257), (64, 4, 64), (64, 4, 512), (usize::MAX, usize::MAX, 1), (64, usize::MAX, 64), (4, 64, 256)];
    for (s, n, length) in shapes.into_iter().chain(lengths) {
        let image = vec![255; length];
        for key in [0, 1, u64::MAX] {
            assert_eq!(image::value(&image, s, n, key), Err(BadGeometry), "{s} {n} {length}");
        }
        assert_eq!(image::records(&image, s, n).map(drop), Err(BadGeometry), "{s} {n} {length}");
        for (region, place) in [(0, 0), (1, 1), (n, s), (usize::MAX, usize::MAX)] {
            assert_eq!(image::record_at(&image, s, n, region, place), Err(BadGeometry), "{s} {n} {length}");
        }
    }
}

#[test]
fn empty_values() {
    let mut chip = vec![255; 256];
    image::append_key(&mut chip, 64, 4, 1, &[]).unwrap();
    let value = image::value(&chip, 64, 4, 1).unwrap();
    assert_eq!(places(value, &chip), 75..75);
    chip[78] ^= 1; // its checksum
    assert_eq!(image::value(&chip, 64, 4, 1), Err(InvalidCheckSum));
    let only = image::records(&chip, 64, 4).unwrap().next().unwrap().unwrap();
    assert_eq!(Read::of(&only, &chip), Read { region: 1, place: 0, live: true, key: 1, value: 75..75, right: false });
}

#[test]
fn records_can_be_cloned_shown_and_outlived() {
    let chip = used();
    let mut records = image::records(&chip, S, N).unwrap();
    assert_eq!(format!("{records:?}"), "Records { s: 64, n: 4, at: Place { region: 0, place: 0 }, .. }");
    let first = records.next().unwrap().unwrap();
    let rest: Vec<_> = records.clone().collect();
    assert_eq!((rest.len(), records.collect::<Vec<_>>()), (2, rest));
    // The value is the image's, and not the iterator's.
    assert_eq!((first.value.len(), first.live), (4, true));
}

fn goes_anywhere<T: Send + Sync + Clone>(_: &T) {}

#[test]
fn a_bad_place_is_an_error() {
    let mut chip = used();
    chip[128] = 1;
    chip[130] = 14;
    let records = image::records(&chip, S, N).unwrap();
    goes_anywhere(&records);
    let error: Box<dyn std::error::Error> = records.last().unwrap().unwrap_err().into();
    assert_eq!(error.to_string(), format!("region 2 is bad at place 0: {}", CorruptData::<()>));
}

/// What the page shows, letter for letter, and that it does what it says.
#[test]
fn the_look_that_the_page_shows() {
    let shown = include_str!("look/page.rs").split_once("\n\n").unwrap().1;
    assert!(include_str!("../../docs/WORKSHOP.md").contains(&format!("```rust\n{shown}```\n")));
    let mut chip = used();
    assert_eq!((page::first_gain(&chip), page::faults(&chip)), (Err(KeyNotFound), Ok(vec![])));
    image::append_key(&mut chip, S, N, 101, &[64, 80]).unwrap();
    assert_eq!((page::first_gain(&chip), page::faults(&chip)), (Ok(Some(64)), Ok(vec![])));
    chip[11] ^= 1; // the value of key 4, in region 0
    chip[192] = 7;
    let faults = ["key 0000000000000004: wrong checksum", "region 3 is bad at place 0: a record of an unknown version"];
    assert_eq!(page::faults(&chip), Ok(faults.map(String::from).into()));
}
