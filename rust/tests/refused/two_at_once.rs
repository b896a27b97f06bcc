//! Must not compile: two operations of one store under way at once.
mod chip;
use chip::Chip;
use stilefray::{Store, StoreRefusal};

fn main() -> Result<(), StoreRefusal<Chip>> {
    let mut region_buffer = [0; 64];
    let mut store = Store::new(Chip([255; 256]), &mut region_buffer, 4);
    let append = store.start_append_key(1, b"gains")?;
    let collect = store.start_garbage_collect()?;
    append.finish()?;
    collect.finish()?;
    Ok(())
}
