//! The blocking calls of a store over a flash in memory, at once and slow. Failures are in failures.rs.
mod common;
use common::Did::{Erase, Read, Write};
use common::{blank, Chip, Fault, N, S};
use stilefray::{image, Flash, Refusal, Store, StoreRefusal, Success};

/// A life of a store; what it answers, in order.
fn life(store: &mut Store<'_, Chip>) -> Vec<Result<usize, u32>> {
    let mut buffer = [0; 8];
    let mut answers = Vec::new();
    let mut note = |answer: Result<usize, StoreRefusal<Chip>>| answers.push(answer.map_err(|refusal| refusal.number()));
    note(store.initialise(4).map(Success::value));
    note(store.initialise(4).map(Success::value));
    note(store.append_key(1, &[7; 49]).map(|()| 1));
    note(store.append_key(5, &[1, 2, 3]).map(|()| 1));
    note(store.append_key(5, &[1, 2, 3]).map(|()| 1));
    note(store.get_key(5, &mut buffer));
    assert_eq!(buffer, [1, 2, 3, 0, 0, 0, 0, 0]);
    note(store.get_key(1, &mut buffer));
    assert_eq!(buffer, [7; 8]);
    note(store.get_key(9, &mut buffer));
    note(store.append_key(9, &[7; 50]).map(|()| 1));
    note(store.invalidate_key(1).map(|()| 1));
    note(store.zeroise_key(5).map(|()| 1));
    note(store.zeroise_key(5).map(|()| 1));
    note(store.garbage_collect());
    answers
}

const ANSWERS: [Result<usize, u32>; 13] =
    [Ok(0), Ok(0), Ok(1), Ok(1), Err(5), Ok(3), Err(9), Err(4), Err(6), Ok(1), Ok(1), Err(4), Ok(128)];

#[test]
fn a_life_at_once_and_slow() {
    let mut anew = blank();
    image::append_key(&mut anew, S, N, 4, &[]).unwrap();
    for waits in [0, 1, 5] {
        let mut chip = Chip::new(S, vec![0; S * N]);
        chip.waits = waits;
        let mut region = [0; S];
        let mut store = Store::new(chip, &mut region, N);
        assert_eq!(life(&mut store), ANSWERS);
        assert_eq!(store.flash().image, anew);
        assert_eq!(store.flash().waited, waits * store.flash().did.len());
    }
}

#[test]
fn the_store_asks_for_the_services_of_the_stepped_form() {
    let mut region = [0; S];
    let mut store = Store::new(Chip::new(S, blank()), &mut region, N);
    store.append_key(1, &[7, 8, 9]).unwrap();
    let written = [1, 0x80, 18, 0, 0, 0, 0, 0, 0, 0, 1, 7, 8, 9, 0x96, 0xc0, 0xf7, 0x18];
    assert_eq!(store.flash_mut().did, [Read(1), Read(2), Read(0), Read(3), Write(64, written.to_vec())]);
    store.flash_mut().did.clear();
    store.invalidate_key(1).unwrap();
    store.garbage_collect().unwrap();
    assert_eq!(store.flash().did, [Read(1), Write(65, vec![0]), Read(0), Read(1), Erase(1), Read(2), Read(3)]);
    store.append_key(1, &[7, 8, 9]).unwrap();
    store.flash_mut().did.clear();
    store.zeroise_key(1).unwrap();
    let zeros = [1, 0, 18, 0, 0, 0, 0, 0, 0, 0, 1, 0, 0, 0, 0, 0, 0, 0];
    assert_eq!(store.flash().did, [Read(1), Write(64, zeros.to_vec())]);
}

#[test]
fn a_flash_may_be_lent() {
    let mut chip = Chip::new(S, blank());
    let mut region = [0; S];
    assert_eq!(Store::new(&mut chip, &mut region, N).append_key(1, &[]), Ok(()));
    assert_eq!(chip.image[64], 1);
    let unnamed: &mut dyn Flash<Error = Fault> = &mut chip;
    assert_eq!(Store::new(unnamed, &mut region, N).get_key(1, &mut []), Ok(0));
    chip.did.clear();
    let given_back = Store::new(chip, &mut region, N).into_flash();
    assert_eq!((given_back.image[64], given_back.did), (1, vec![]));
}

#[test]
fn a_store_of_a_wrong_shape_refuses_every_call() {
    for (size, regions) in [(63, 4), (4097, 4), (64, 0), (64, 65), (0, 0)] {
        let mut region = vec![0; size];
        let mut store = Store::new(Chip::new(S, blank()), &mut region, regions);
        assert_eq!(store.get_key(1, &mut []), Err(Refusal::BadGeometry));
        assert_eq!(store.append_key(0, &[0; 5000]), Err(Refusal::BadGeometry));
        assert_eq!(store.invalidate_key(1), Err(Refusal::BadGeometry));
        assert_eq!(store.zeroise_key(1), Err(Refusal::BadGeometry));
        assert_eq!(store.garbage_collect(), Err(Refusal::BadGeometry));
        assert_eq!(store.initialise(1), Err(Refusal::BadGeometry));
        assert_eq!(store.flash().did, []);
    }
}
