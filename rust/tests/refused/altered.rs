//! Must not compile: an append's value altered while it is under way.
mod chip;
use chip::Chip;
use stilefray::{Store, StoreRefusal};

fn main() -> Result<(), StoreRefusal<Chip>> {
    let mut region_buffer = [0; 64];
    let mut store = Store::new(Chip([255; 256]), &mut region_buffer, 4);
    let mut value = *b"gains";
    let append = store.start_append_key(1, &value)?;
    value[0] = b'r';
    append.finish()?;
    Ok(())
}
