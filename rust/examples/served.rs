use stilefray::{Flash, NotDone, Served, Store, StoreRefusal, Success};

/// Why this flash fails. A driver's own error stands here; it comes back in FlashFailed.
#[derive(Debug)]
struct Worn;

/// Stands for a slow flash of 4 regions of 1,024 bytes: a service is begun at the first call, and is done at the fourth.
struct Slow {
    chip: [[u8; 1024]; 4],
    calls: u32,
}

impl Slow {
    fn ready(&mut self) -> Result<(), NotDone<Worn>> {
        self.calls += 1;
        if self.calls % 4 == 0 {
            Ok(())
        } else {
            Err(NotDone::NotReady)
        }
    }
}

impl Flash for Slow {
    type Error = Worn;

    fn read_region(&mut self, region: usize, buffer: &mut [u8]) -> Result<(), NotDone<Worn>> {
        self.ready()?;
        buffer.copy_from_slice(&self.chip[region]);
        Ok(())
    }

    /// It reads back what it wrote: a worn flash fails here.
    fn write(&mut self, place: usize, bytes: &[u8]) -> Result<(), NotDone<Worn>> {
        self.ready()?;
        let part = &mut self.chip[place / 1024][place % 1024..][..bytes.len()];
        part.iter_mut().zip(bytes).for_each(|(old, new)| *old &= new);
        if part == bytes {
            Ok(())
        } else {
            Err(NotDone::Failed(Worn))
        }
    }

    fn erase_region(&mut self, region: usize) -> Result<(), NotDone<Worn>> {
        self.ready()?;
        self.chip[region] = [255; 1024];
        Ok(())
    }
}

fn main() -> Result<(), StoreRefusal<Slow>> {
    let mut region_buffer = [0; 1024];
    let slow = Slow { chip: [[0; 1024]; 4], calls: 0 };
    let mut store = Store::new(slow, &mut region_buffer, 4).with_limit(1000);
    assert_eq!(store.initialise(1000)?, Success::Written); // a blocking call: it asks again while the flash is not ready

    // The same loop by hand, with other work in it. Until it has answered or is dropped, `append` has the store to itself.
    let mut append = store.start_append_key(101, b"R1.1 G1 B0.9")?;
    let mut other_work = 0;
    let answer = loop {
        match append.serve() {
            Served::Answer(answer) => break answer,
            Served::More => {}
            Served::NotReady => other_work += 1,
        }
    };
    assert_eq!(answer?, Success::Written);

    let mut buffer = [0; 64];
    let length = store.get_key(101, &mut buffer)?;
    println!("{length} bytes: {}", String::from_utf8_lossy(&buffer[..length]));
    println!("{other_work} turns of other work during the append");
    Ok(())
}
