//! A flash whose first read fails, at initialise: outside the domain of R14.1,
//! and of no line D1 to D8. The crate erases the chip, ours leaves it.

use crate::straight;
use std::cell::Cell;
use stilefray::{Flash, NotDone, Refusal, Store};
use tickv::success_codes::SuccessCode;
use tickv::{ErrorCode, FlashController, TicKV};

const S: usize = 64;
const N: usize = 4;
const MAIN_KEY: u64 = 1;

/// A chip with the main key and another.
fn chip() -> Vec<u8> {
    let mut image = vec![255; S * N];
    straight::append(&mut image, S, N, MAIN_KEY, &[]).expect("there is room");
    straight::append(&mut image, S, N, 2, b"season").expect("there is room");
    image
}

/// The chip in cells, for the crate's `&self`, and whether a read has failed.
struct Failing(Vec<Cell<u8>>, Cell<bool>);

impl Failing {
    fn new() -> Failing {
        Failing(chip().into_iter().map(Cell::new).collect(), Cell::new(false))
    }

    fn read(&self, region: usize, buffer: &mut [u8]) -> Result<(), ()> {
        if !self.1.replace(true) {
            return Err(());
        }
        buffer.iter_mut().zip(&self.0[region * S..]).for_each(|(new, old)| *new = old.get());
        Ok(())
    }

    fn written(&self, place: usize, bytes: &[u8]) {
        self.0[place..].iter().zip(bytes).for_each(|(old, new)| old.set(old.get() & new));
    }

    fn erased(&self, region: usize) {
        self.0[region * S..][..S].iter().for_each(|byte| byte.set(255));
    }

    fn image(&self) -> Vec<u8> {
        self.0.iter().map(Cell::get).collect()
    }
}

impl FlashController<S> for &Failing {
    fn read_region(&self, region: usize, buffer: &mut [u8; S]) -> Result<(), ErrorCode> {
        self.read(region, buffer).map_err(|()| ErrorCode::ReadFail)
    }

    fn write(&self, place: usize, bytes: &[u8]) -> Result<(), ErrorCode> {
        self.written(place, bytes);
        Ok(())
    }

    fn erase_region(&self, region: usize) -> Result<(), ErrorCode> {
        self.erased(region);
        Ok(())
    }
}

impl Flash for &Failing {
    type Error = ();

    fn read_region(&mut self, region: usize, buffer: &mut [u8]) -> Result<(), NotDone<()>> {
        self.read(region, buffer).map_err(NotDone::Failed)
    }

    fn write(&mut self, place: usize, bytes: &[u8]) -> Result<(), NotDone<()>> {
        self.written(place, bytes);
        Ok(())
    }

    fn erase_region(&mut self, region: usize) -> Result<(), NotDone<()>> {
        self.erased(region);
        Ok(())
    }
}

/// Whether the crate erases the chip and ours leaves it as it was.
pub fn show() -> bool {
    let (theirs, mine) = (Failing::new(), Failing::new());
    let (mut read_buffer, mut region_buffer) = ([0; S], [0; S]);
    let crate_said = TicKV::<_, S>::new(&theirs, &mut read_buffer, S * N).initialise(MAIN_KEY);
    let said = Store::new(&mine, &mut region_buffer, N).initialise(MAIN_KEY);
    println!("  S 64, N 4: the main key and another; initialise, whose first read fails");
    println!("     the Rust: {crate_said:?}, and {} bytes are left", left(&theirs));
    println!("     ours:     {said:?}, and {} bytes are left", left(&mine));
    let erased = matches!(crate_said, Ok(SuccessCode::Written)) && left(&theirs) == 15;
    let kept = matches!(said, Err(Refusal::FlashFailed(_))) && mine.image() == chip();
    erased && kept
}

/// How many bytes are not blank.
fn left(flash: &Failing) -> usize {
    flash.image().iter().filter(|byte| **byte != 255).count()
}
