use std::convert::Infallible;
use stilefray::{Flash, NotDone, Store, StoreRefusal, Success};

/// Stands for the chip: 4 regions of 1,024 bytes.
struct Chip([[u8; 1024]; 4]);

impl Flash for Chip {
    type Error = Infallible; // memory does not fail; a driver's own error type stands here

    fn read_region(&mut self, region: usize, buffer: &mut [u8]) -> Result<(), NotDone<Infallible>> {
        buffer.copy_from_slice(&self.0[region]);
        Ok(())
    }

    fn write(&mut self, place: usize, bytes: &[u8]) -> Result<(), NotDone<Infallible>> {
        for (old, new) in self.0[place / 1024][place % 1024..].iter_mut().zip(bytes) {
            *old &= new;
        }
        Ok(())
    }

    fn erase_region(&mut self, region: usize) -> Result<(), NotDone<Infallible>> {
        self.0[region] = [255; 1024];
        Ok(())
    }
}

fn main() -> Result<(), StoreRefusal<Chip>> {
    let mut region_buffer = [0u8; 1024];
    let mut store = Store::new(Chip([[0; 1024]; 4]), &mut region_buffer, 4);
    // The main key: with any other than the chip's own the chip is erased, and with other regions it may be.
    if store.initialise(1000)? == Success::Written {
        eprintln!("a new chip");
    }
    store.append_key(101, b"R1.1 G1 B0.9")?;
    let mut buffer = [0u8; 64];
    let length = store.get_key(101, &mut buffer)?;
    println!("{length} bytes: {}", String::from_utf8_lossy(&buffer[..length]));
    Ok(())
}
