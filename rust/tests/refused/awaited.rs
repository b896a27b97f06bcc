//! Must not compile: two calls for an executor on one store, to be polled by turns.
mod chip;
use chip::Chip;
use stilefray::Store;

fn main() {
    let mut region_buffer = [0; 64];
    let mut store = Store::new(Chip([255; 256]), &mut region_buffer, 4);
    let append = store.append_key_async(1, b"gains");
    let mut buffer = [0; 8];
    let get = store.get_key_async(2, &mut buffer);
    drop((append, get));
}
