//! Coming over from tickv: the main key, S and N have to be those of the chip; and keys that tickv stored twice.
use super::hands::{has_room, record_of, write, Dice};
use super::{append, free_place, get, said};
use super::{FLASH_FULL, KEY_NOT_FOUND, OK};
use stilefray::{image, Success};

/// Keys and their values.
type Values = Vec<(u64, Vec<u8>)>;

/// A chip of 4 regions of 1,024 bytes, its main key, and what is stored on it.
fn chip(dice: &mut Dice) -> (Vec<u8>, u64, Values) {
    let (main, mut chip) = (dice.next(), vec![255; 4096]);
    assert_eq!(image::initialise(&mut chip, 1024, 4, main), Ok(Success::Written));
    let values = (0..12).map(|i| (dice.next(), vec![i; (dice.next() % 200) as usize])).collect::<Values>();
    values.iter().for_each(|(key, value)| assert_eq!(append(&mut chip, 1024, 4, *key, value), OK));
    (chip, main, values)
}

/// On a copy: initialise says Complete, and a get of every key that is known its value.
fn fits(chip: &[u8], s: usize, n: usize, main: u64, values: &[(u64, Vec<u8>)]) -> (bool, bool) {
    let mut copy = chip[..s * n].to_vec();
    let complete = image::initialise(&mut copy, s, n, main) == Ok(Success::Complete(0));
    assert!(!complete || copy == chip[..s * n]);
    (complete, values.iter().all(|(key, value)| get(&copy, s, n, *key).as_ref() == Ok(value)))
}

/// With another S or N the chip is erased or, by chance, initialise says Complete; with another main key it is erased. To try every key
/// on a copy tells these from the right ones, but for chips so empty that another S shows the same records.
#[test]
fn a_copy_tells_whether_key_and_geometry_are_right() {
    let mut dice = Dice(99);
    let (mut erased, mut by_chance) = (0, 0);
    for _ in 0..200 {
        let (chip, main, values) = chip(&mut dice);
        assert_eq!(fits(&chip, 1024, 4, main, &values), (true, true));
        assert_eq!(fits(&chip, 1024, 4, dice.next(), &values), (false, false));
        let others = [(64, 64), (256, 16), (512, 8), (2048, 2), (4096, 1), (1024, 2), (1024, 1)];
        let fit = others.map(|(s, n)| (shows_the_same(&chip, s, n), fits(&chip, s, n, main, &values)));
        assert!(fit.iter().all(|(same, (_, all))| *same || !all));
        by_chance += fit.iter().filter(|(_, fit)| *fit == (true, false)).count();
        erased += fit.iter().filter(|(_, (complete, _))| !complete).count();
    }
    assert!(erased > 100 && by_chance > 100, "{erased} {by_chance}");
}

/// Whether the records of every region lie in the first `s` of its bytes, and no region that has any begins inside one of `s` bytes.
fn shows_the_same(chip: &[u8], s: usize, n: usize) -> bool {
    let ends: Vec<usize> = chip.chunks(1024).map(free_place).collect();
    (0..4).all(|region| ends[region] == 0 || (ends[region] <= s && region * 1024 % s == 0 && region * 1024 < s * n))
}

/// Such a chip: 8 regions of 512 bytes show what 4 of 1,024 do. To go on so is to lose records: an erase makes 1,024 bytes blank.
#[test]
fn an_empty_chip_does_not_tell_its_geometry() {
    let mut chip = vec![255; 4096];
    assert_eq!(image::initialise(&mut chip, 1024, 4, 1000), Ok(Success::Written));
    let values: Vec<_> = (1..9).map(|key| (key, vec![key as u8; 60])).collect();
    values.iter().for_each(|(key, value)| assert_eq!(append(&mut chip, 1024, 4, *key, value), OK));
    assert_eq!(fits(&chip, 512, 8, 1000, &values), (true, true));
    assert_eq!(append(&mut chip, 512, 8, 9, &[9]), OK);
    assert_eq!((said(get(&chip, 512, 8, 9)), said(get(&chip, 1024, 4, 9))), (OK, KEY_NOT_FOUND));
}

/// A chip of one key that has two live records, in region 0 and in region 1, and room for a value of so many bytes at most.
fn twice(room: usize) -> Vec<u8> {
    let mut chip = vec![255; 128];
    write(&mut chip, 0, &record_of(64, 4, b"newer"));
    write(&mut chip, 64, &record_of(64, 4, b"older"));
    assert_eq!(append(&mut chip, 64, 2, 6, &[1; 29]), OK);
    assert_eq!(append(&mut chip, 64, 2, 7, &vec![1; 29 - 15 - room]), OK);
    assert_eq!(free_place(&chip[64..]), 64 - 15 - room);
    chip
}

fn remove_until_gone(chip: &mut [u8], key: u64) -> usize {
    (0..9).take_while(|_| said(image::invalidate_key(chip, 64, 2, key)) == OK).count()
}

/// To remove until KeyNotFound and then append loses the value where there is no room; the walk tells before.
#[test]
fn a_key_that_was_stored_twice() {
    for room in 0..=14 {
        let mut chip = twice(room);
        let value = get(&chip, 64, 2, 4).unwrap();
        let seen = has_room(&chip, 64, value.len());
        assert_eq!(remove_until_gone(&mut chip, 4), 2);
        assert_eq!(image::garbage_collect(&mut chip, 64, 2), Ok(0));
        assert_eq!(append(&mut chip, 64, 2, 4, &value), if seen { OK } else { FLASH_FULL });
        assert_eq!((seen, said(get(&chip, 64, 2, 4))), (room >= 5, if room >= 5 { OK } else { KEY_NOT_FOUND }));
    }
}

/// By a second key nothing is lost: it is appended first, and the old one removed until KeyNotFound after Written.
#[test]
fn a_key_that_was_stored_twice_goes_over_to_a_second() {
    for room in 0..=14 {
        let mut chip = twice(room);
        let value = get(&chip, 64, 2, 4).unwrap();
        if append(&mut chip, 64, 2, 8, &value) == OK {
            assert_eq!(remove_until_gone(&mut chip, 4), 2);
            assert_eq!((get(&chip, 64, 2, 8), said(get(&chip, 64, 2, 4))), (Ok(value), KEY_NOT_FOUND));
        } else {
            assert!(room < 5 && get(&chip, 64, 2, 4) == Ok(value));
        }
    }
}
