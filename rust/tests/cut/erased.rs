//! An erase that was cut off: of the bits that were to become 1, some are. Dead records can come back to life.
use super::hands::{is_blank, records, Dice};
use super::walk::live_and_right;
use super::{append, get, said, N};
use super::{INVALID_CHECK_SUM, KEY_NOT_FOUND, OK};
use stilefray::{image, Flash, NotDone, Refusal, Store};

const S: usize = 64;
/// Removed, with an old value in region 1 and a new one in region 2; removed and gone; never removed.
const REPLACED: u64 = 101;
const GONE: u64 = 3001;
const KEPT: u64 = 3003;

type Remove = fn(&mut [u8], usize, usize, u64) -> Result<(), Refusal>;

/// Region 1 holds two dead records. Region 0 holds the main key.
fn chip(remove: Remove) -> Vec<u8> {
    let mut chip = vec![255; S * N];
    assert!(image::initialise(&mut chip, S, N, 1000).is_ok());
    assert_eq!(append(&mut chip, S, N, REPLACED, b"twelve bytes"), OK);
    assert_eq!(append(&mut chip, S, N, GONE, &[1; 22]), OK);
    assert_eq!(said(remove(&mut chip, S, N, REPLACED)), OK);
    assert_eq!(append(&mut chip, S, N, REPLACED, b"new"), OK);
    assert_eq!(said(remove(&mut chip, S, N, GONE)), OK);
    assert_eq!(append(&mut chip, S, N, KEPT, b"kept"), OK);
    chip
}

/// What the calls say on a chip on which nothing is wrong.
fn is_right(chip: &[u8]) -> bool {
    let values = get(chip, S, N, REPLACED) == Ok(b"new".to_vec()) && get(chip, S, N, KEPT) == Ok(b"kept".to_vec());
    values && said(get(chip, S, N, GONE)) == KEY_NOT_FOUND && get(chip, S, N, 1000).is_ok()
}

/// Of an erase of region 1: which bits are done.
fn cut(chip: &mut [u8], mut done: impl FnMut(usize) -> u8) {
    (0..S).for_each(|place| chip[S + place] |= done(place));
}

/// An invalidated record comes back with its old value and a right checksum, if only its top bit has become 1. It hides a newer one, and
/// collect leaves it.
#[test]
fn an_invalidated_record_comes_back_whole() {
    let mut back = chip(image::invalidate_key);
    cut(&mut back, |place| if place == 1 || place == 28 { 128 } else { 0 });
    assert_eq!(get(&back, S, N, REPLACED), Ok(b"twelve bytes".to_vec()));
    assert_eq!(get(&back, S, N, GONE), Ok(vec![1; 22]));
    let before = back.clone();
    assert!(image::initialise(&mut back, S, N, 1000).is_ok());
    assert_eq!(image::garbage_collect(&mut back, S, N), Ok(0));
    assert_eq!(back, before);
    look(&mut back);
    assert_eq!(back, before, "nothing on the chip tells it from one that was never removed");
}

/// A zeroised one comes back with a wrong checksum. Removed, it gives the newer one free.
#[test]
fn a_zeroised_record_comes_back_with_a_wrong_checksum() {
    let mut back = chip(image::zeroise_key);
    cut(&mut back, |place| if place == 1 || place == 28 { 128 } else { 0 });
    assert_eq!(said(get(&back, S, N, REPLACED)), INVALID_CHECK_SUM);
    assert_eq!(said(get(&back, S, N, GONE)), INVALID_CHECK_SUM);
    assert_eq!(said(image::zeroise_key(&mut back, S, N, REPLACED)), OK);
    assert_eq!(said(image::zeroise_key(&mut back, S, N, GONE)), OK);
    assert!(is_right(&back));
}

/// A flash that notes, outside the chip, which region it erases, and strikes the note out when it is done. Power goes in one erase, and
/// leaves what is given.
struct Noting {
    chip: Vec<u8>,
    left: Option<Vec<u8>>,
    note: Option<usize>,
}

impl Flash for Noting {
    type Error = ();

    fn read_region(&mut self, region: usize, buffer: &mut [u8]) -> Result<(), NotDone<()>> {
        buffer.copy_from_slice(&self.chip[region * S..][..S]);
        Ok(())
    }

    fn write(&mut self, place: usize, bytes: &[u8]) -> Result<(), NotDone<()>> {
        super::hands::write(&mut self.chip, place, bytes);
        Ok(())
    }

    fn erase_region(&mut self, region: usize) -> Result<(), NotDone<()>> {
        self.note = Some(region);
        if let Some(left) = self.left.take() {
            self.chip[region * S..][..S].copy_from_slice(&left);
            return Err(NotDone::Failed(()));
        }
        self.chip[region * S..][..S].fill(255);
        self.note = None;
        Ok(())
    }
}

/// By the note: the region is erased again before anything else. Whatever the cut left, bits of either kind, all is then right, and
/// collect leaves what it should have left; however the records were removed.
#[test]
fn the_region_that_was_noted_is_erased_again() {
    let mut dice = Dice(5);
    for turn in 0..2_000 {
        let before = chip(if turn % 2 == 0 { image::invalidate_key } else { image::zeroise_key });
        let mut collected = before.clone();
        assert_eq!(image::garbage_collect(&mut collected, S, N), Ok(S));
        let left = (0..S).map(|place| if turn % 4 < 2 { before[S + place] | dice.next() as u8 } else { dice.next() as u8 }).collect();
        let mut region_buffer = [0; S];
        let mut store = Store::new(Noting { chip: before, left: Some(left), note: None }, &mut region_buffer, N);
        assert!(matches!(store.garbage_collect(), Err(Refusal::FlashFailed(_))));
        let noted = store.flash_mut().note.take();
        assert_eq!(noted, Some(1));
        assert_eq!(store.flash_mut().erase_region(1), Ok(()));
        assert_eq!(store.garbage_collect(), Ok(0));
        assert!(store.flash().note.is_none() && is_right(&store.flash().chip));
        assert_eq!(store.into_flash().chip, collected);
    }
}

/// By a look at the chip: each region is erased that is not blank and whose walk meets no live record with a right checksum.
fn look(chip: &mut [u8]) {
    for region in chip.chunks_mut(S) {
        let holds = records(region).iter().any(|&(place, length)| live_and_right(&region[place..place + length]) == (true, true));
        if !holds && !is_blank(region) {
            region.fill(255);
        }
    }
}

/// Where all that is dead was zeroised, the look puts right whatever an erase leaves that was cut off, and collect finds nothing more to
/// do. Bits that became 1, in any order, in the order of places, or just those that make a record live; and bits that went the other way,
/// as a flash leaves them that clears a region before it erases it.
#[test]
fn a_look_at_every_region_puts_a_cut_erase_right() {
    let mut dice = Dice(3);
    let (mut wrong, zeroised) = (0, chip(image::zeroise_key));
    for turn in 0..20_000 {
        let mut left = zeroised.clone();
        match turn % 6 {
            0 => cut(&mut left, |_| dice.next() as u8),
            1 => cut(&mut left, |_| (dice.next() & dice.next() & dice.next()) as u8),
            2 => cut(&mut left, |place| if place < turn / 6 % S { 255 } else { 0 }),
            3 => cut(&mut left, |place| if place >= turn / 6 % S { 255 } else { 128 }),
            4 => cut(&mut left, |place| if place == 1 || place == 28 { dice.next() as u8 & 128 } else { 0 }),
            _ => left[S..2 * S].iter_mut().for_each(|byte| *byte &= dice.next() as u8),
        }
        wrong += usize::from(!is_right(&left));
        look(&mut left);
        assert!(is_right(&left) && is_blank(&left[S..2 * S]), "turn {turn}");
        assert_eq!(image::garbage_collect(&mut left, S, N), Ok(0));
    }
    assert!(wrong > 1_000, "{wrong}");
}

/// On a chip on which nothing was cut off, the look does what collect does.
#[test]
fn a_look_at_a_chip_that_is_right_is_a_collect() {
    for remove in [image::invalidate_key as Remove, image::zeroise_key] {
        let (mut looked, mut collected) = (chip(remove), chip(remove));
        look(&mut looked);
        assert_eq!(image::garbage_collect(&mut collected, S, N), Ok(S));
        assert_eq!(looked, collected);
    }
}
