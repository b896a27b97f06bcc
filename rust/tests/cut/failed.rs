//! A write that failed when a part of it was done: the place and the length are known, and one recipe serves every cut.
use super::hands::{is_blank, is_mended, record_of, three, write};
use super::{append, free_place, get, said, scenes, Behind, Scene, FLASH_FULL, KEY_NOT_FOUND, N, OK};
use stilefray::stepped::{Reply, Request, Running};
use stilefray::{image, Failure, Flash, NotDone, Refusal, Service, Store};

/// A flash whose next write fails after so many bytes.
struct Failing {
    chip: Vec<u8>,
    s: usize,
    after: Option<usize>,
}

impl Flash for Failing {
    type Error = ();

    fn read_region(&mut self, region: usize, buffer: &mut [u8]) -> Result<(), NotDone<()>> {
        buffer.copy_from_slice(&self.chip[region * self.s..][..self.s]);
        Ok(())
    }

    fn write(&mut self, place: usize, bytes: &[u8]) -> Result<(), NotDone<()>> {
        let after = self.after.take();
        write(&mut self.chip, place, &bytes[..after.unwrap_or(bytes.len())]);
        after.map_or(Ok(()), |_| Err(NotDone::Failed(())))
    }

    fn erase_region(&mut self, region: usize) -> Result<(), NotDone<()>> {
        self.chip[region * self.s..][..self.s].fill(255);
        Ok(())
    }
}

/// The append of a scene fails after so many bytes; what is done about it is given the store and the write's place and length.
fn failed(scene: &Scene, count: usize, mend: impl FnOnce(&mut Store<Failing>, usize, usize)) -> Vec<u8> {
    let mut region_buffer = vec![0; scene.s];
    let flash = Failing { chip: scene.before.clone(), s: scene.s, after: Some(count) };
    let mut store = Store::new(flash, &mut region_buffer, N);
    match store.append_key(scene.key, &scene.value) {
        Err(Refusal::FlashFailed(Failure { service: Service::Write { place, length }, .. })) => mend(&mut store, place, length),
        answer => panic!("{answer:?}"),
    }
    store.into_flash().chip
}

fn many_scenes() -> impl Iterator<Item = Scene> {
    let keys = [101, 0xFFFF_FFFF_FFFF_0065, 0x1234_5678_9abc_ffff, u64::MAX - 1];
    let sizes = [64, 256, 1024, 4096];
    let lengths = [0, 12, 29];
    let mut all: Vec<Scene> = scenes(&sizes, &keys, &lengths, &Behind::EACH).collect();
    all.extend([300, 990].map(|length| Scene::new(1024, 101, length, Behind::Live)));
    all.push(Scene::new(64, 101, 49, Behind::Nothing));
    all.into_iter()
}

/// Three bytes at the write's place: a dead record of its length, whatever the cut left. Then the append goes through if there is room
/// behind it, every other key is as it was, and the chip is as after a removal.
#[test]
fn three_bytes_at_the_place_that_failed() {
    for scene in many_scenes() {
        (0..=scene.record.len()).for_each(|count| three_then_again(&scene, count));
    }
}

fn three_then_again(scene: &Scene, count: usize) {
    let dead = failed(scene, count, |store, place, length| {
        assert_eq!((place, length), (scene.start(), scene.record.len()));
        assert_eq!(store.flash_mut().write(place, &three(length)), Ok(()));
    });
    assert!(is_mended(&dead, scene.s), "{scene:?} after {count} bytes");
    scene.answers_when_dead(&dead, scene.record.len());
    let mut again = dead.clone();
    let retry = append(&mut again, scene.s, N, scene.key, &scene.value);
    assert_eq!(retry, scene.retry_from(scene.place + scene.record.len()));
    assert!(retry != OK || get(&again, scene.s, N, scene.key) == Ok(scene.value.clone()));
}

/// The whole record once more at its place finishes it, since a write only clears bits. No room is lost.
#[test]
fn the_whole_record_again_at_the_place_that_failed() {
    for scene in many_scenes() {
        let record = record_of(scene.s, scene.key, &scene.value);
        assert_eq!(record, scene.record);
        (0..=record.len()).for_each(|count| {
            let finished = failed(&scene, count, |store, place, _| assert_eq!(store.flash_mut().write(place, &record), Ok(())));
            assert_eq!(finished, scene.whole, "{scene:?} after {count} bytes");
        });
    }
}

/// Where the record took the last room, the three bytes cost it: FlashFull. The whole record again does not.
#[test]
fn the_whole_record_again_where_the_chip_is_full() {
    let (s, n, key, value) = (64, 2, 101, [7; 20]);
    let mut chip = vec![255; s * n];
    assert_eq!(append(&mut chip, s, n, 2000, &[1; 49]), OK);
    assert_eq!(append(&mut chip, s, n, 2001, &[2; 14]), OK);
    let place = s + free_place(&chip[s..]);
    assert!(place + 35 == 2 * s && is_blank(&chip[place..]));
    for count in 0..=35 {
        let mut cut = chip.clone();
        write(&mut cut, place, &record_of(s, key, &value)[..count]);
        let mut dead = cut.clone();
        write(&mut dead, place, &three(35));
        assert_eq!(append(&mut dead, s, n, key, &value), FLASH_FULL);
        assert_eq!(image::garbage_collect(&mut dead, s, n), Ok(0));
        write(&mut cut, place, &record_of(s, key, &value));
        assert_eq!(get(&cut, s, n, key), Ok(value.to_vec()));
        assert!(is_mended(&cut, s) && get(&cut, s, n, 2000).is_ok() && get(&cut, s, n, 2001).is_ok());
    }
}

/// In C the record's bytes are those of the region buffer that the last request names, also after the step that was told of the failure.
#[test]
fn the_region_buffer_holds_the_record_that_failed() {
    let scene = Scene::new(256, 101, 30, Behind::Live);
    let mut region = vec![0; 256];
    let mut running = Running::append_key(256, N, 101, 30).unwrap();
    let mut request = running.step(Reply::Begin, &mut region, &scene.value, &mut []);
    while let Request::Read { region: r } = request {
        region.copy_from_slice(&scene.before[r * 256..][..256]);
        request = running.step(Reply::Done, &mut region, &scene.value, &mut []);
    }
    let Request::Write { from, to, place } = request else { panic!("{request:?}") };
    assert_eq!(running.step(Reply::Failed, &mut region, &scene.value, &mut []), Request::Answer(Err(Refusal::FlashFailed(()))));
    assert_eq!((place, &region[from..to]), (scene.start(), &scene.record[..]));
}

/// A removal that failed is asked for again. Its place is not the record's where it invalidates: the three bytes are not for it.
#[test]
fn a_failed_removal_is_asked_for_again() {
    let scene = Scene::new(256, 101, 30, Behind::Live);
    for after in [0, 1] {
        let mut region_buffer = vec![0; 256];
        let flash = Failing { chip: scene.whole.clone(), s: 256, after: Some(after) };
        let mut store = Store::new(flash, &mut region_buffer, N);
        let service = Service::Write { place: scene.start() + 1, length: 1 };
        match store.invalidate_key(101) {
            Err(Refusal::FlashFailed(failure)) => assert_eq!(failure.service, service),
            answer => panic!("{answer:?}"),
        }
        let retry = store.invalidate_key(101);
        assert!(if after == 0 { retry == Ok(()) } else { retry == Err(Refusal::KeyNotFound) });
        assert_eq!(said(get(&store.into_flash().chip, 256, N, 101)), KEY_NOT_FOUND);
    }
}
