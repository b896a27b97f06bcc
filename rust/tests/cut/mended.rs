//! After a loss of power the place is not known: what a look at the answers and the walk of the regions find, and what mends it.
use super::hands::{false_places, has_room, is_blank, is_mended, mend, record_of, records, three, write, Dice};
use super::walk::{live_and_right, walk};
use super::{append, get, neighbour, probe_order, said, scenes, Behind, Scene, Stands, ABSENT, N};
use super::{CORRUPT_DATA, FLASH_FULL, INVALID_CHECK_SUM, KEY_NOT_FOUND, OK, UNSUPPORTED_VERSION};
use stilefray::{image, Refusal};

const SIZES: [usize; 4] = [64, 256, 1024, 4096];
const KEYS: [u64; 5] = [101, 0x0123_4567_89ab_cdef, 0xff00_0000_0000_0004, 0x1234_5678_9abc_ffff, u64::MAX - 1];

/// No record has it, not even where one of its bytes is something else.
const ELSEWHERE: u64 = 0x7777_7777_7777_7777;

/// The walk that the page shows is the one that is tried here.
#[test]
fn the_walk_is_the_one_that_the_page_shows() {
    let shown = include_str!("walk.rs").split_once("\n\n").unwrap().1;
    assert!(include_str!("../../../docs/WORKSHOP.md").contains(&format!("```rust\n{shown}```\n")));
}

/// And it is the store's, on regions of which a byte is something else than it was: an absent key is refused as the place has it where
/// the walk stops, or stored there.
#[test]
fn the_walk_is_the_stores() {
    let mut dice = Dice(7);
    for _ in 0..20_000 {
        let mut region = vec![255; 96];
        (1..4).for_each(|key| assert_ne!(append(&mut region, 96, 1, key, &vec![3; (dice.next() % 20) as usize]), CORRUPT_DATA));
        region[(dice.next() % 96) as usize] = dice.next() as u8;
        as_the_store(&region);
    }
}

fn as_the_store(region: &[u8]) {
    let s = region.len();
    let (place, bad) = walk(region, |place, length| assert!(length >= 15 && place + length <= s));
    let mut stored = region.to_vec();
    let says = append(&mut stored, s, 1, ELSEWHERE, &[]);
    match (bad, says) {
        (true, UNSUPPORTED_VERSION) => assert!(region[place] != 1 && region[place] != 255),
        (true, CORRUPT_DATA) => assert_eq!(region[place], 1),
        (false, OK) => assert_eq!(stored[place..place + 15], record_of(s, ELSEWHERE, &[])),
        (false, FLASH_FULL) => assert!(s - place < 15),
        (false, CORRUPT_DATA) => assert!(!is_blank(&region[place..place + 15])),
        wrong => panic!("{wrong:?} of {region:?}"),
    }
    let mut met = Vec::new();
    for (place, length) in records(region) {
        let record = &region[place..place + length];
        let key = u64::from_be_bytes(record[3..11].try_into().unwrap());
        let (live, right) = live_and_right(record);
        if live && key != 0 && key != u64::MAX && !met.contains(&key) {
            met.push(key);
            assert_eq!(said(get(region, s, 1, key)), if right { OK } else { INVALID_CHECK_SUM });
        }
    }
}

/// A value has room exactly where a walk ends with its length and 15 bytes more before its region's end.
#[test]
fn room_is_what_the_walk_says() {
    let mut dice = Dice(11);
    (0..300).for_each(|_| fill(&mut dice));
}

fn fill(dice: &mut Dice) {
    let (mut chip, mut says) = (vec![255; 64 * N], OK);
    while says == OK {
        let (key, length) = (dice.next(), (dice.next() % 60) as usize);
        let room = has_room(&chip, 64, length);
        says = append(&mut chip, 64, N, key, &vec![1; length]);
        assert_eq!(says, if room { OK } else { FLASH_FULL });
    }
}

/// A whole record, looked at with too short a buffer, is BufferTooSmall just as one with a wrong checksum is: it says nothing of the
/// checksum. Into a buffer of the value's length no cut is BufferTooSmall.
#[test]
fn a_short_buffer_says_nothing_of_the_checksum() {
    for scene in scenes(&SIZES, &KEYS, &[1, 12, 29], &Behind::EACH) {
        (0..=scene.record.len()).for_each(|count| looked_at(&scene, count));
    }
}

fn looked_at(scene: &Scene, count: usize) {
    let (length, cut) = (scene.value.len(), scene.cut(count, 255));
    let says = image::get_key(&cut, scene.s, N, scene.key, &mut vec![0; length]);
    let short = image::get_key(&cut, scene.s, N, scene.key, &mut vec![0; length - 1]);
    let stands = scene.stands(&cut);
    assert_eq!(says == Ok(length), stands == Stands::Whole);
    assert_eq!(says == Err(Refusal::InvalidCheckSum), stands == Stands::Own);
    assert!(!matches!(says, Err(Refusal::BufferTooSmall(_))));
    let found = stands == Stands::Whole || stands == Stands::Own;
    assert_eq!(short == Err(Refusal::BufferTooSmall(length)), found);
}

/// By the walk: 127 on byte 1 of each live record whose checksum is wrong, and three bytes on a bad place, mend every cut, also where the
/// last byte is half written. What was left is then a dead record, or the whole one.
#[test]
fn the_walk_mends_every_cut() {
    for scene in scenes(&SIZES, &KEYS, &[0, 29], &Behind::EACH) {
        let halves = (0..=scene.record.len()).flat_map(|count| [255, 0xF0, 0x2A, 0x01].map(|left| (count, left)));
        halves.for_each(|(count, left)| walked(&scene, scene.cut(count, left)));
    }
}

/// Of a flash that clears bits in any order some are cleared and some are not. The same serves, with the length that the record was to
/// have; and so do the three bytes alone, and the whole record, where the place is known.
#[test]
fn the_walk_mends_bits_in_any_order() {
    let mut dice = Dice(17);
    for scene in scenes(&[64, 256, 1024], &KEYS, &[0, 29], &Behind::EACH) {
        (0..30).for_each(|_| some_bits(&scene, || dice.next() as u8));
        (0..30).for_each(|_| some_bits(&scene, || (dice.next() & dice.next()) as u8));
    }
}

fn some_bits(scene: &Scene, mut left: impl FnMut() -> u8) {
    let mut cut = scene.before.clone();
    let some: Vec<u8> = scene.record.iter().map(|byte| byte | left()).collect();
    write(&mut cut, scene.start(), &some);
    let (mut dead, mut whole) = (cut.clone(), cut.clone());
    walked(scene, cut);
    write(&mut dead, scene.start(), &three(scene.record.len()));
    scene.answers_when_dead(&dead, scene.record.len());
    write(&mut whole, scene.start(), &scene.record);
    assert_eq!(whole, scene.whole);
}

/// The other way with a bad place: what its region holds is read, the region erased, and all of it appended anew.
#[test]
fn a_region_with_a_bad_place_is_erased_and_filled_again() {
    for scene in scenes(&[64, 256], &KEYS, &[12, 29], &Behind::EACH) {
        let cuts = [(0, 0xF0), (0, 3), (1, 255), (1, 0x70), (2, 255)].map(|(count, left)| scene.cut(count, left));
        let bad = cuts.into_iter().filter(|cut| matches!(scene.stands(cut), Stands::Bad(_)));
        bad.for_each(|cut| erased_and_filled(&scene, cut));
    }
}

fn erased_and_filled(scene: &Scene, mut chip: Vec<u8>) {
    filled_again(&mut chip[scene.order[0] * scene.s..][..scene.s]);
    assert!(is_mended(&chip, scene.s));
    scene.neighbours(&chip, &Stands::Nothing);
    assert_eq!(append(&mut chip, scene.s, N, scene.key, &scene.value), OK);
}

fn filled_again(region: &mut [u8]) {
    let s = region.len();
    let live = |&(place, _): &(usize, usize)| region[place + 1] >= 128;
    let key = |(place, _)| u64::from_be_bytes(region[place + 3..place + 11].try_into().unwrap());
    let keys: Vec<u64> = records(region).into_iter().filter(live).map(key).collect();
    let values: Vec<Vec<u8>> = keys.iter().map(|&key| get(region, s, 1, key).unwrap()).collect();
    region.fill(255);
    keys.iter().zip(&values).for_each(|(&key, value)| assert_eq!(append(region, s, 1, key, value), OK));
}

fn walked(scene: &Scene, cut: Vec<u8>) {
    let mut mended = cut;
    mend(&mut mended, scene.s, scene.record.len());
    assert!(is_mended(&mended, scene.s), "{scene:?}");
    if mended == scene.before || mended == scene.whole {
        return scene.answers(&mended, if mended == scene.whole { &Stands::Whole } else { &Stands::Nothing });
    }
    let (free, _) = walk(&mended[scene.order[0] * scene.s..][..scene.s], |_, _| ());
    scene.answers_when_dead(&mended, free - scene.place);
}

/// A record of key 2^64 - 1 can't be removed by a call, and keeps its region from being collected. The top bit of its byte 1, cleared,
/// makes it dead, and what was appended behind it stays. The three bytes would shorten it and hide that.
#[test]
fn one_byte_makes_a_record_of_the_last_key_dead() {
    let mut hidden = 0;
    for scene in scenes(&SIZES, &KEYS, &[0, 12, 29], &Behind::EACH) {
        hidden += (1..=10).filter(|&count| last_key(&scene, count)).count();
    }
    assert!(hidden > 0);
}

/// Whether the three bytes hid what had been appended.
fn last_key(scene: &Scene, count: usize) -> bool {
    let (s, home) = (scene.s, scene.order[0] * scene.s);
    let mut chip = scene.cut(count, 255);
    let Stands::Other(u64::MAX, length) = scene.stands(&chip) else { return false };
    let stored = append(&mut chip, s, N, scene.key, &scene.value) == OK;
    let place = false_places(&chip[home..home + s])[0];
    assert_eq!(place, scene.place);
    let mut shortened = chip.clone();
    write(&mut shortened, home + place, &three(scene.record.len()));
    write(&mut chip, home + place + 1, &[127]);
    assert!(is_mended(&chip, s));
    assert_eq!(get(&chip, s, N, scene.key).is_ok(), stored);
    scene.neighbours(&chip, &Stands::Nothing);
    if stored {
        assert_eq!(said(image::invalidate_key(&mut chip, s, N, scene.key)), OK);
    }
    scene.answers_when_dead(&chip, walk(&chip[home..home + s], |_, _| ()).0 - place);
    let hides = stored && get(&shortened, s, N, scene.key).is_err();
    assert!(!hides || length > scene.record.len());
    hides
}

/// The false key is the key with its last 1 to 7 bytes 255. A get of each finds it: the one that is InvalidCheckSum. After that is
/// removed, nothing false stands on the chip.
#[test]
fn the_false_key_is_found_by_trying() {
    for scene in scenes(&SIZES, &KEYS, &[0, 12, 29], &Behind::EACH) {
        (4..=10).for_each(|count| sought(&scene, count));
    }
}

fn sought(scene: &Scene, count: usize) {
    let mut chip = scene.cut(count, 255);
    let Stands::Other(key, _) = scene.stands(&chip) else { return };
    let stored = append(&mut chip, scene.s, N, scene.key, &scene.value) == OK;
    let found = tried(&mut chip, scene);
    assert_eq!(found, if key == u64::MAX { vec![] } else { vec![key] }, "{scene:?} after {count} bytes");
    assert_eq!(is_mended(&chip, scene.s), key != u64::MAX);
    assert_eq!(get(&chip, scene.s, N, scene.key).is_ok(), stored);
}

/// The keys that get said InvalidCheckSum of. They are removed.
fn tried(chip: &mut [u8], scene: &Scene) -> Vec<u64> {
    let mut found = Vec::new();
    for bytes in 1..=7 {
        let key = scene.key | ((1 << (8 * bytes)) - 1);
        if said(get(chip, scene.s, N, key)) == INVALID_CHECK_SUM {
            assert_eq!(said(image::invalidate_key(chip, scene.s, N, key)), OK);
            found.push(key);
        }
    }
    found
}

/// A byte that stands behind the free place is no bad place yet. It becomes one when a record is appended that ends just before it.
/// Mended first, with the length that the record was to have, it does not.
#[test]
fn a_stray_byte_becomes_a_bad_place() {
    for scene in scenes(&[256], &[0x0123_4567_89ab_cd00], &[30], &Behind::EACH) {
        (15..scene.record.len()).for_each(|stray| strayed(&scene, stray));
    }
}

fn strayed(scene: &Scene, stray: usize) {
    let (s, near, short) = (scene.s, neighbour(ABSENT, scene.order[0]), vec![1; stray - 15]);
    let mut chip = scene.before.clone();
    chip[scene.start() + stray] = scene.record[stray];
    scene.place_not_blank(&chip);
    let region = &chip[scene.order[0] * s..][..s];
    let (place, bad) = walk(region, |_, _| ());
    assert!(place == scene.place && !bad && !is_blank(&region[place..]));

    let mut spoiled = chip.clone();
    assert_eq!(append(&mut spoiled, s, N, near, &short), OK);
    let version = said(get(&spoiled, s, N, scene.key));
    assert!(version == UNSUPPORTED_VERSION || version == CORRUPT_DATA, "{version}");
    assert_eq!(append(&mut spoiled, s, N, neighbour(ABSENT, scene.order[2]), &[]), version);

    write(&mut chip, scene.start(), &three(scene.record.len()));
    assert!(is_mended(&chip, s));
    scene.answers_when_dead(&chip, scene.record.len());
    assert_eq!(append(&mut chip, s, N, near, &short), OK);
    assert_eq!(append(&mut chip, s, N, scene.key, &scene.value), OK);
    assert_eq!((get(&chip, s, N, near), get(&chip, s, N, scene.key)), (Ok(short), Ok(scene.value.clone())));
}

/// A value under two keys, whose new record is cut off: the place hides the old one too, where that lies in a later region. Once it is
/// mended, the old value is there after every cut, or the new one is whole.
#[test]
fn a_replacement_by_two_keys_that_was_cut() {
    let (s, old, new) = (64, 101, 105); // both at home in region 1
    let mut chip = vec![255; s * N];
    assert_eq!(append(&mut chip, s, N, 3001, &[1; 49]), OK);
    assert_eq!(append(&mut chip, s, N, old, &[0, 0, 0, 1, 7]), OK);
    assert_eq!(said(image::invalidate_key(&mut chip, s, N, 3001)), OK);
    assert_eq!(image::garbage_collect(&mut chip, s, N), Ok(s));
    assert!(probe_order(old, N)[0] == 1 && is_blank(&chip[s..2 * s]));
    let record = record_of(s, new, &[0, 0, 0, 2, 8]);
    for count in 0..=record.len() {
        let mut cut = chip.clone();
        write(&mut cut, s, &record[..count]);
        let hidden = count == 1 || count == 2;
        assert_eq!(said(get(&cut, s, N, old)), if hidden { CORRUPT_DATA } else { OK });
        assert_eq!(said(get(&cut, s, N, new)) == CORRUPT_DATA, hidden);
        mend(&mut cut, s, record.len());
        assert!(is_mended(&cut, s));
        assert_eq!(get(&cut, s, N, old), Ok(vec![0, 0, 0, 1, 7]));
        let again = append(&mut cut, s, N, new, &[0, 0, 0, 2, 8]);
        assert_eq!(again == OK, count < record.len());
        assert_eq!(said(image::invalidate_key(&mut cut, s, N, old)), OK);
        assert_eq!((said(get(&cut, s, N, old)), get(&cut, s, N, new)), (KEY_NOT_FOUND, Ok(vec![0, 0, 0, 2, 8])));
    }
}
