//! Must not compile: a running operation stepped twice, by a copy.
use stilefray::stepped::{Reply, Running};

fn main() -> Result<(), stilefray::Refusal> {
    let mut region = [0; 64];
    let mut running = Running::append_key(64, 4, 1, 5)?;
    let mut copy = running;
    let _ = copy.step(Reply::Begin, &mut region, b"gains", &mut []);
    let _ = running.step(Reply::Begin, &mut region, b"gains", &mut []);
    Ok(())
}
