//! What a write leaves that stops half way, by a loss of power or a service that failed, and what the retry answers: the table of
//! docs/WORKSHOP.md, for every number of bytes after which an append or a removal can be cut. A write is taken to put its bytes down from
//! the first to the last; the two tests whose names end in `was_not_written` are about a flash that does not. The page's recipes are tried
//! beside it: `cut::failed`, where the place is known, `cut::mended`, where it is not, `cut::erased`, after an erase that was cut off, and
//! `cut::moved`, for a chip that tickv wrote.
mod cut;

use cut::{append, free_place, get, probe_order, said, scenes, Behind, Scene, Stands, N};
use cut::{BAD_KEY, CORRUPT_DATA, FLASH_FULL, INVALID_CHECK_SUM, KEY_ALREADY_EXISTS, OK, UNSUPPORTED_VERSION};
use stilefray::{image, Refusal};

/// Keys with and without bytes that are 255, at home in each of the four regions.
const KEYS: [u64; 9] = [
    101,
    0x0123_4567_89ab_cdef,
    0x1234_5678_9abc_deff, // the last byte is 255: a record cut after 10 bytes has its own key
    0x00ff_ffff_ffff_ffff, // after 4 bytes
    0xff00_0000_0000_0004, // the first byte is 255
    0xffff_ffff_ffff_ff02, // all but the last: 3 to 10 bytes leave key 2^64 - 1
    u64::MAX - 1,
    255,
    0x0100,
];

/// What a cut after so many whole bytes leaves, as the table has it.
fn table(scene: &Scene, count: usize) -> Stands {
    let left = scene.s - scene.place;
    let rest_blank = |from: usize| scene.record[from..].iter().all(|&byte| byte == 255);
    let false_key = scene.key | u64::MAX.checked_shr(8 * (count as u32).saturating_sub(3)).unwrap_or(0);
    let low_255 = (scene.record.len() / 256) * 256 + 255;
    match count {
        0 => Stands::Nothing,
        1 if left >= 4095 => Stands::Other(u64::MAX, 4095),
        1 => Stands::Bad(CORRUPT_DATA),
        2 if left >= low_255 => Stands::Other(u64::MAX, low_255),
        2 => Stands::Bad(CORRUPT_DATA),
        3..=10 if false_key != scene.key => Stands::Other(false_key, scene.record.len()),
        _ if rest_blank(count) => Stands::Whole,
        _ => Stands::Own,
    }
}

/// Every cut of one append: the table is right, and each answer is the one for what stands.
fn every_cut(scene: &Scene) {
    for count in 0..=scene.record.len() {
        let cut = scene.cut(count, 255);
        let stands = table(scene, count);
        assert_eq!(scene.stands(&cut), stands, "{scene:?} after {count} bytes");
        scene.answers(&cut, &stands);
    }
}

#[test]
fn an_append_cut_after_every_number_of_bytes() {
    for scene in scenes(&[64, 65, 255, 256, 300, 1024, 4095, 4096], &KEYS, &[0, 12, 29], &Behind::EACH) {
        every_cut(&scene);
    }
}

/// Records whose length has the low byte 254, 255 or 0, and such as fill their region to the last byte.
#[test]
fn appends_of_lengths_that_the_second_byte_decides() {
    let around = scenes(&[1024], &[101], &[239, 240, 241, 495, 496, 497, 990], &Behind::EACH);
    let first = scenes(&[256], &[101], &[239, 240, 241], &[Behind::Nothing]);
    let filled = [(64, 49, Behind::Nothing), (64, 30, Behind::Live), (256, 222, Behind::Dead), (1024, 1009, Behind::Nothing)];
    let filling = filled.into_iter().map(|(s, length, behind)| Scene::new(s, 101, length, behind));
    for scene in around.chain(first).chain(filling) {
        every_cut(&scene);
    }
}

#[test]
fn long_appends_on_the_largest_regions() {
    for (length, behind) in [(4079, Behind::Nothing), (3824, Behind::Live), (1000, Behind::Nothing), (4061, Behind::Dead)] {
        every_cut(&Scene::new(4096, 0x0123_4567_89ab_cdef, length, behind));
    }
}

/// A value of bytes that are 255 anyway: no cut in it makes a difference. A checksum that ends so, or is 255 in all four bytes: the last
/// cuts leave the whole record.
#[test]
fn bytes_that_are_255_anyway() {
    let all_four = made_to_fit(&[1, 0x80, 19, 0, 0, 0, 0, 0, 0, 0, 101], 0);
    let scene = Scene::of(64, 101, all_four.to_vec(), Behind::Dead);
    assert_eq!(scene.record[15..], [255; 4]);
    every_cut(&scene);
    let mut tries = (0..=255).map(|byte| Scene::of(64, 101, vec![byte, 1], Behind::Nothing));
    every_cut(&tries.find(|scene| scene.record.ends_with(&[255])).unwrap());
    for s in [64, 1024] {
        every_cut(&Scene::of(s, 101, vec![255; 20], Behind::Live));
        every_cut(&Scene::of(s, 0x1234_5678_9abc_ffff, vec![255; 7], Behind::Nothing));
    }
}

/// A byte of which only some bits are cleared, for each of the first twelve bytes and every way.
#[test]
fn bytes_that_are_half_written() {
    for scene in some_scenes() {
        (0..12 * 256).for_each(|half| half_written(&scene, half / 256, (half % 256) as u8));
    }
}

fn some_scenes() -> [Scene; 4] {
    [
        Scene::new(64, 101, 12, Behind::Live),
        Scene::new(256, 0x0123_4567_89ab_cdef, 100, Behind::Nothing),
        Scene::new(1024, u64::MAX - 1, 300, Behind::Dead),
        Scene::new(4096, 0x1234_5678_9abc_deff, 20, Behind::Nothing),
    ]
}

/// The same words as the table's, where the byte after `count` whole ones is as `left` says.
fn half_written(scene: &Scene, count: usize, left: u8) {
    let cut = scene.cut(count, left);
    let byte = scene.record[count] | left;
    let stands = scene.stands(&cut);
    let room = scene.s - scene.place;
    match count {
        0 if byte != 255 && byte != 1 => assert_eq!(stands, Stands::Bad(UNSUPPORTED_VERSION)),
        1 | 2 => match stands {
            Stands::Bad(refusal) => assert_eq!(refusal, CORRUPT_DATA),
            Stands::Other(key, length) => assert!(key == u64::MAX && scene.record.len() <= length && length <= room),
            _ => panic!("{scene:?}: {count} bytes and {byte} leave {stands:?}"),
        },
        3..=10 => match stands {
            Stands::Other(key, length) => assert!(key & scene.key == scene.key && length == scene.record.len()),
            _ => assert_eq!(stands, Stands::Own),
        },
        11.. => assert_eq!(stands, if cut == scene.whole { Stands::Whole } else { Stands::Own }),
        _ => assert_eq!(stands, table(scene, if byte == 1 { 1 } else { 0 })),
    }
    scene.answers(&cut, &stands);
}

/// A flash that does not put bytes down in their order: any byte but the first is there, and the first is not. Then no record stands, but
/// the place is not blank. Get says KeyNotFound, and what would be laid there is CorruptData.
#[test]
fn a_place_whose_first_byte_was_not_written() {
    for scene in scenes(&[256], &[0x0123_4567_89ab_cd00], &[30], &Behind::EACH) {
        (1..scene.record.len()).for_each(|alone| one_byte_alone(&scene, alone));
    }
}

fn one_byte_alone(scene: &Scene, alone: usize) {
    let mut cut = scene.before.clone();
    cut[scene.start() + alone] = scene.record[alone];
    assert_ne!(scene.record[alone], 255);
    scene.place_not_blank(&cut);
    made_dead(scene, cut, scene.record.len());
}

/// The key of which a cut leaves a record may be in use. Where its own record is found first, it answers, and the false one comes to light
/// when it is removed. Where the false one is found first, it hides the other until it is removed.
#[test]
fn a_false_record_of_a_key_in_use() {
    let (s, n, key, used) = (64, 3, 0x4200, 0x42ff); // both at home in region 0
    let mut first = vec![255; s * n];
    assert_eq!(append(&mut first, s, n, used, &[1, 2, 3]), OK);
    cut_after_ten(&mut first, s, n, key);
    assert_eq!(get(&first, s, n, used), Ok(vec![1, 2, 3]));
    assert_eq!(said(image::invalidate_key(&mut first, s, n, used)), OK);
    assert_eq!(said(get(&first, s, n, used)), INVALID_CHECK_SUM);
    assert_eq!(append(&mut first, s, n, used, &[4]), KEY_ALREADY_EXISTS);
    assert_eq!(said(image::invalidate_key(&mut first, s, n, used)), OK);
    assert_eq!(append(&mut first, s, n, used, &[4]), OK);
    assert_eq!(get(&first, s, n, used), Ok(vec![4]));

    let mut hidden = vec![255; s * n];
    assert_eq!(append(&mut hidden, s, n, 3, &[0; 49]), OK); // fills region 0
    assert_eq!(append(&mut hidden, s, n, used, &[1, 2, 3]), OK);
    assert_eq!(said(image::invalidate_key(&mut hidden, s, n, 3)), OK);
    assert_eq!(image::garbage_collect(&mut hidden, s, n), Ok(s));
    cut_after_ten(&mut hidden, s, n, key);
    assert_eq!(said(get(&hidden, s, n, used)), INVALID_CHECK_SUM);
    assert_eq!(append(&mut hidden, s, n, used, &[4]), KEY_ALREADY_EXISTS);
    assert_eq!(said(image::zeroise_key(&mut hidden, s, n, used)), OK);
    assert_eq!(get(&hidden, s, n, used), Ok(vec![1, 2, 3]));
}

/// An append to region 0 of which ten bytes are written.
fn cut_after_ten(chip: &mut [u8], s: usize, n: usize, key: u64) {
    let place = free_place(&chip[..s]);
    let mut whole = chip.to_vec();
    assert_eq!(append(&mut whole, s, n, key, &[9; 4]), OK);
    chip[place..place + 10].copy_from_slice(&whole[place..place + 10]);
}

/// A checksum is 32 bits: a value can be made whose first bytes, with 255 behind them, have the checksum 255, 255, 255, 255, which is what
/// stands there when the write is cut behind them. Get then answers Complete, with another value. By chance it is one cut in 2^32.
#[test]
fn a_checksum_that_fits_what_was_cut() {
    let (s, n, key) = (256, 4, 101);
    let mut value = *b"........gone";
    let before = [&[1, 0x80, 27, 0, 0, 0, 0, 0, 0, 0, 101], &value[..4]].concat();
    value[4..8].copy_from_slice(&made_to_fit(&before, 4));
    let mut chip = vec![255; s * n];
    assert_eq!(append(&mut chip, s, n, key, &value), OK);
    chip[s + 11 + 8..2 * s].fill(255);
    assert_eq!(append(&mut chip, s, n, key, &value), KEY_ALREADY_EXISTS);
    value[8..].fill(255);
    assert_eq!(get(&chip, s, n, key), Ok(value.to_vec()));
}

/// Four bytes which, behind these and with so many bytes of 255 behind them, have the checksum 255, 255, 255, 255.
fn made_to_fit(before: &[u8], behind: usize) -> [u8; 4] {
    let wanted = (0..behind).fold(0, |bits, _| unshifted(bits, 8) ^ 255 << 24);
    (summed(before) ^ unshifted(wanted, 32)).to_be_bytes()
}

/// The checksum's 32 bits after these bytes, before they are inverted.
fn summed(bytes: &[u8]) -> u32 {
    let shift = |bits: u32| bits << 1 ^ if bits >> 31 == 1 { 0x04C1_1DB7 } else { 0 };
    bytes.iter().fold(0, |bits, &byte| (0..8).fold(bits ^ (byte as u32) << 24, |bits, _| shift(bits)))
}

/// What the 32 bits were before so many shifts; the polynomial's lowest bit says which way each went.
fn unshifted(bits: u32, shifts: usize) -> u32 {
    let unshift = |bits: u32| if bits & 1 == 1 { (bits ^ 0x04C1_1DB7) >> 1 | 0x8000_0000 } else { bits >> 1 };
    (0..shifts).fold(bits, |bits, _| unshift(bits))
}

/// An invalidate clears one bit: cut or not, it is done or it is not. A zeroise that is cut after two bytes or more has removed the key,
/// and the rest of the value stays readable until its region is erased: the retry is KeyNotFound.
#[test]
fn removals_cut_after_every_number_of_bytes() {
    for scene in scenes(&[64, 256, 1024, 4096], &[0x0123_4567_89ab_cdef], &[0, 29], &Behind::EACH) {
        let mut dead = scene.whole.clone();
        assert_eq!(said(image::invalidate_key(&mut dead, scene.s, N, scene.key)), OK);
        let changed: Vec<usize> = (0..dead.len()).filter(|&i| dead[i] != scene.whole[i]).collect();
        assert_eq!(changed, [scene.start() + 1]);
        assert_eq!(scene.whole[changed[0]] ^ dead[changed[0]], 0x80);
        scene.answers_when_dead(&dead, scene.record.len());
        zeroise_cut(&scene);
    }
}

fn zeroise_cut(scene: &Scene) {
    let (s, start) = (scene.s, scene.start());
    let mut zeroised = scene.whole.clone();
    assert_eq!(said(image::zeroise_key(&mut zeroised, s, N, scene.key)), OK);
    for count in 0..=scene.record.len() {
        let mut cut = scene.whole.clone();
        cut[start..start + count].copy_from_slice(&zeroised[start..start + count]);
        if count < 2 {
            assert_eq!(cut, scene.whole);
            scene.answers(&cut, &Stands::Whole);
        } else {
            assert_eq!(cut[start + count.max(11)..], scene.whole[start + count.max(11)..]);
            scene.answers_when_dead(&cut, scene.record.len());
            cut[start + 11..start + scene.record.len()].fill(0);
            assert_eq!(cut, zeroised, "finished by zeros from byte 11 to the end");
        }
    }
}

/// A flash that puts a zeroise's zeros down before the bit that makes the record dead: the key is still there with a wrong checksum, and
/// the retry finishes it.
#[test]
fn a_zeroise_whose_second_byte_was_not_written() {
    let scene = Scene::new(256, 101, 30, Behind::Live);
    let mut zeroised = scene.whole.clone();
    assert_eq!(said(image::zeroise_key(&mut zeroised, 256, N, 101)), OK);
    for zeros in 1..=scene.record.len() - 11 {
        let mut cut = scene.whole.clone();
        cut[scene.start() + 11..scene.start() + 11 + zeros].fill(0);
        assert_eq!(said(get(&cut, 256, N, 101)), INVALID_CHECK_SUM);
        assert_eq!(append(&mut cut, 256, N, 101, &scene.value), KEY_ALREADY_EXISTS);
        assert_eq!(said(image::zeroise_key(&mut cut, 256, N, 101)), OK);
        assert_eq!(cut, zeroised);
    }
}

/// Initialise's own append, cut: initialise again leaves what it should have left, whatever stands.
#[test]
fn an_initialise_cut_in_its_last_write() {
    for (s, key) in [(64, 1000), (256, 101), (1024, u64::MAX - 1), (4096, 0x00ff_ffff_ffff_ffff)] {
        let mut made = vec![255; s * N];
        assert!(image::initialise(&mut made, s, N, key).is_ok());
        let start = probe_order(key, N)[0] * s;
        (0..=15).for_each(|count| initialised_again(&made, start, count, key));
    }
}

fn initialised_again(made: &[u8], start: usize, count: usize, key: u64) {
    let mut cut = vec![255; made.len()];
    cut[start..start + count].copy_from_slice(&made[start..start + count]);
    assert!(image::initialise(&mut cut, made.len() / N, N, key).is_ok());
    assert_eq!(cut, made, "{key} after {count} bytes");
}

/// The main key stands first in its home region, so initialise at the next start finds it before anything that a cut append has left, and
/// alters nothing: no cut makes it erase the chip.
#[test]
fn an_initialise_after_a_cut_append_alters_nothing() {
    for (s, main, key) in [(64, 4, 8), (256, 4, 8), (1024, 5, 8), (4096, 4, 12), (4096, 4, 13)] {
        let mut chip = vec![255; s * N];
        assert!(image::initialise(&mut chip, s, N, main).is_ok());
        let mut whole = chip.clone();
        assert_eq!(append(&mut whole, s, N, key, b"R1.1 G1 B0.9"), OK);
        let start = (0..s * N).find(|&i| whole[i] != chip[i]).unwrap();
        (0..=27).for_each(|count| found_again(&chip, &whole[start..start + count], start, main));
    }
}

fn found_again(chip: &[u8], written: &[u8], start: usize, main: u64) {
    let mut cut = chip.to_vec();
    cut[start..start + written.len()].copy_from_slice(written);
    let before = cut.clone();
    assert!(image::initialise(&mut cut, chip.len() / N, N, main).is_ok());
    assert_eq!(cut, before, "{main} after {} bytes", written.len());
}

/// By the flash's own commands: three bytes written over the place, 1 and the length that the record was to have, make whatever the cut
/// left a dead record of that length. All is then as after a removal. Where its third byte was not yet begun, 15 does for the length.
#[test]
fn three_bytes_by_hand_make_it_dead() {
    for scene in some_scenes() {
        let length = scene.record.len();
        (0..length * 16).for_each(|half| made_dead(&scene, scene.cut(half / 16, (half % 16 * 17) as u8), length));
        (0..2 * 256).for_each(|half| made_dead(&scene, scene.cut(half / 256, (half % 256) as u8), 15));
        made_dead(&scene, scene.cut(2, 255), 15);
    }
}

fn made_dead(scene: &Scene, mut cut: Vec<u8>, length: usize) {
    let three = [1, (length / 256) as u8, (length % 256) as u8];
    let place = &mut cut[scene.start()..];
    (0..3).for_each(|i| place[i] &= three[i]);
    assert_eq!(place[..3], three);
    scene.answers_when_dead(&cut, length);
}

/// What is refused of key 2^64 - 1, of which a cut may leave a record: nothing can be done about it through the store.
#[test]
fn the_last_key_is_no_key() {
    let scene = Scene::new(1024, 101, 12, Behind::Nothing);
    let mut cut = scene.cut(3, 255);
    assert_eq!(scene.stands(&cut), Stands::Other(u64::MAX, 27));
    assert_eq!(said(get(&cut, 1024, N, u64::MAX)), BAD_KEY);
    assert_eq!(said(image::invalidate_key(&mut cut, 1024, N, u64::MAX)), BAD_KEY);
    assert_eq!(said(image::zeroise_key(&mut cut, 1024, N, u64::MAX)), BAD_KEY);
    assert_eq!(append(&mut cut, 1024, N, u64::MAX, &[]), BAD_KEY);
    assert_eq!(cut, scene.cut(3, 255));
}

/// FlashFull: where the false record took the last room, the retry finds none. Once the false key is removed and the region collected, it
/// does.
#[test]
fn a_false_record_that_takes_the_last_room() {
    let (s, n, key, false_key) = (64, 1, 0x4200, 0x42ff);
    let mut whole = vec![255; s];
    assert_eq!(append(&mut whole, s, n, key, &[7; 40]), OK);
    let mut cut = vec![255; s];
    cut[..10].copy_from_slice(&whole[..10]);
    assert_eq!(append(&mut cut, s, n, key, &[7; 40]), FLASH_FULL);
    assert_eq!(said(image::invalidate_key(&mut cut, s, n, false_key)), OK);
    assert_eq!(append(&mut cut, s, n, key, &[7; 40]), FLASH_FULL);
    assert_eq!(image::garbage_collect(&mut cut, s, n), Ok(s));
    assert_eq!(append(&mut cut, s, n, key, &[7; 40]), OK);
    assert_eq!(cut, whole);
    let mut buffer = [0; 39];
    assert_eq!(image::get_key(&cut, s, n, key, &mut buffer), Err(Refusal::BufferTooSmall(40)));
}
