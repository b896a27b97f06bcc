//! Compiles: interleaved.rs with the get after the append.
mod chip;
use chip::Chip;
use stilefray::{Served, Store, StoreRefusal};

fn main() -> Result<(), StoreRefusal<Chip>> {
    let mut region_buffer = [0; 64];
    let mut store = Store::new(Chip([255; 256]), &mut region_buffer, 4);
    let mut append = store.start_append_key(1, b"gains")?;
    while append.serve() == Served::More {}
    let _ = store.get_key(2, &mut [0; 8]);
    store.get_key(1, &mut [0; 8])?;
    Ok(())
}
