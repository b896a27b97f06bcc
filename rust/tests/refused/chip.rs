//! A flash in memory, 4 regions of 64 bytes, for the programs beside it.
use std::convert::Infallible;
use stilefray::{Flash, NotDone};

pub struct Chip(pub [u8; 256]);

impl Flash for Chip {
    type Error = Infallible;

    fn read_region(&mut self, region: usize, buffer: &mut [u8]) -> Result<(), NotDone<Infallible>> {
        buffer.copy_from_slice(&self.0[region * 64..][..64]);
        Ok(())
    }

    fn write(&mut self, place: usize, bytes: &[u8]) -> Result<(), NotDone<Infallible>> {
        self.0[place..].iter_mut().zip(bytes).for_each(|(old, new)| *old &= new);
        Ok(())
    }

    fn erase_region(&mut self, region: usize) -> Result<(), NotDone<Infallible>> {
        self.0[region * 64..][..64].fill(255);
        Ok(())
    }
}
