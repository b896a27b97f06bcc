//! A host's flash in memory that is at times not ready, may fail at one
//! service, and keeps the list of what it did.

use crate::prng::Prng;
use crate::straight::Service;
use stilefray::{Flash, NotDone};

/// The host's own error: how many services were done before the one that
/// failed.
#[derive(Clone, Copy, Debug, PartialEq, Eq)]
pub struct Fault(pub usize);

pub struct Host {
    pub image: Vec<u8>,
    pub done: Vec<Service>,
    pub s: usize,
    /// Not ready one time in so many; 0 for never.
    slow: usize,
    /// The service that fails, counted from 0.
    fails_at: Option<usize>,
    rng: Prng,
}

impl Host {
    pub fn new(image: &[u8], s: usize, slow: usize, fails_at: Option<usize>, rng: Prng) -> Host {
        Host { image: image.to_vec(), done: Vec::new(), s, slow, fails_at, rng }
    }

    fn verdict(&mut self) -> Result<(), NotDone<Fault>> {
        if self.slow > 0 && self.rng.one_in(self.slow) {
            return Err(NotDone::NotReady);
        }
        if self.fails_at == Some(self.done.len()) {
            return Err(NotDone::Failed(Fault(self.done.len())));
        }
        Ok(())
    }
}

impl Flash for Host {
    type Error = Fault;

    fn read_region(&mut self, region: usize, buffer: &mut [u8]) -> Result<(), NotDone<Fault>> {
        self.verdict()?;
        buffer.copy_from_slice(&self.image[region * self.s..][..self.s]);
        self.done.push(Service::Read(region));
        Ok(())
    }

    fn write(&mut self, place: usize, bytes: &[u8]) -> Result<(), NotDone<Fault>> {
        self.verdict()?;
        let service = Service::Write { place, bytes: bytes.to_vec() };
        apply(&mut self.image, self.s, &service);
        self.done.push(service);
        Ok(())
    }

    fn erase_region(&mut self, region: usize) -> Result<(), NotDone<Fault>> {
        self.verdict()?;
        apply(&mut self.image, self.s, &Service::Erase(region));
        self.done.push(Service::Erase(region));
        Ok(())
    }
}

/// What a service does to an image.
pub fn apply(image: &mut [u8], s: usize, service: &Service) {
    match service {
        Service::Read(_) => {}
        Service::Erase(region) => image[region * s..][..s].fill(255),
        Service::Write { place, bytes } => {
            for (old, new) in image[*place..][..bytes.len()].iter_mut().zip(bytes) {
                *old &= new;
            }
        }
    }
}
