//! A chip on which an append is cut off, what then stands at its place, and what each call has to answer.
mod erased;
mod failed;
mod hands;
mod mended;
mod moved;
mod walk;

use stilefray::{image, Refusal};

/// How many regions a scene's chip has.
pub const N: usize = 4;

/// What a call says, in numbers: 0, or the refusal's.
pub const OK: u32 = 0;
pub const BAD_KEY: u32 = 2;
pub const KEY_NOT_FOUND: u32 = 4;
pub const KEY_ALREADY_EXISTS: u32 = 5;
pub const FLASH_FULL: u32 = 6;
pub const UNSUPPORTED_VERSION: u32 = 7;
pub const CORRUPT_DATA: u32 = 8;
pub const INVALID_CHECK_SUM: u32 = 10;

pub fn said<T>(answer: Result<T, Refusal>) -> u32 {
    match answer {
        Ok(_) => OK,
        Err(refusal) => refusal.number(),
    }
}

/// The value, read into a buffer that holds any.
pub fn get(chip: &[u8], s: usize, n: usize, key: u64) -> Result<Vec<u8>, Refusal> {
    let mut buffer = vec![0xEE; 4096];
    let length = image::get_key(chip, s, n, key, &mut buffer)?;
    buffer.truncate(length);
    Ok(buffer)
}

pub fn append(chip: &mut [u8], s: usize, n: usize, key: u64, value: &[u8]) -> u32 {
    said(image::append_key(chip, s, n, key, value))
}

/// The regions in the order in which a lookup of the key reads them.
pub fn probe_order(key: u64, n: usize) -> Vec<usize> {
    let home = (key % 65_536) as i64 % n as i64;
    let around = (1..n as i64).flat_map(|far| [home + far, home - far]);
    std::iter::once(home).chain(around).filter(|region| (0..n as i64).contains(region)).map(|region| region as usize).collect()
}

/// Where a region's records end; no bad place stands in it.
pub fn free_place(region: &[u8]) -> usize {
    let mut place = 0;
    while place + 15 <= region.len() && region[place] == 1 {
        place += length_at(&region[place..]);
    }
    place
}

fn length_at(record: &[u8]) -> usize {
    (record[1] % 16) as usize * 256 + record[2] as usize
}

/// What stands in the key's home region before the append.
#[derive(Clone, Copy, Debug, PartialEq, Eq)]
pub enum Behind {
    Nothing,
    Live,
    Dead,
}

impl Behind {
    pub const EACH: [Behind; 3] = [Behind::Nothing, Behind::Live, Behind::Dead];
}

/// What stands at the record's place after the cut.
#[derive(Clone, Debug, PartialEq, Eq)]
pub enum Stands {
    /// Nothing: the chip is as before.
    Nothing,
    /// A bad place, with its refusal.
    Bad(u32),
    /// A live record of another key, and its length.
    Other(u64, usize),
    /// The key's own record, with a wrong checksum.
    Own,
    /// The whole record.
    Whole,
}

/// Keys on the chip beside the one that is appended, told apart by a tag; their home is what they are asked to have.
const FILLS: u64 = 1;
const SPILLED: u64 = 2;
const APART: u64 = 3;
const GONE: u64 = 4;
const NEAR: u64 = 5;
const ABSENT: u64 = 6;

fn neighbour(tag: u64, home: usize) -> u64 {
    0xA5A5_0000_0000_0000 | tag << 16 | home as u64
}

/// A chip of four regions, and an append of which the home region has room. In probe order: the home region is empty, or has one record;
/// the second has a live record whose key is at home in the first; the third a live one at home there; the fourth only a dead one.
pub struct Scene {
    pub s: usize,
    pub key: u64,
    pub value: Vec<u8>,
    pub behind: Behind,
    pub order: Vec<usize>,
    /// The record's place in its region, and its bytes.
    pub place: usize,
    pub record: Vec<u8>,
    pub before: Vec<u8>,
    pub whole: Vec<u8>,
}

impl std::fmt::Debug for Scene {
    fn fmt(&self, f: &mut std::fmt::Formatter<'_>) -> std::fmt::Result {
        write!(f, "s {}, key {:#x}, a value of {} behind {:?}", self.s, self.key, self.value.len(), self.behind)
    }
}

impl Scene {
    /// With a value of bytes that are neither 0 nor 255.
    pub fn new(s: usize, key: u64, length: usize, behind: Behind) -> Scene {
        Scene::of(s, key, (0..length).map(|i| (i * 7 % 251 + 1) as u8).collect(), behind)
    }

    pub fn of(s: usize, key: u64, value: Vec<u8>, behind: Behind) -> Scene {
        let order = probe_order(key, N);
        let before = chip_before(s, &order, behind);
        let place = free_place(&before[order[0] * s..][..s]);
        let mut whole = before.clone();
        assert_eq!(append(&mut whole, s, N, key, &value), OK);
        let start = order[0] * s + place;
        let record = whole[start..start + value.len() + 15].to_vec();
        let mut rest = whole.clone();
        rest[start..start + record.len()].fill(255);
        assert_eq!(rest, before, "one write, at the free place of the home region");
        Scene { s, key, value, behind, order, place, record, before, whole }
    }

    /// The record's place in the image.
    pub fn start(&self) -> usize {
        self.order[0] * self.s + self.place
    }

    /// The chip after the first `count` bytes, and of the next byte those bits cleared that `left` does not keep.
    pub fn cut(&self, count: usize, left: u8) -> Vec<u8> {
        let mut chip = self.before.clone();
        let place = &mut chip[self.start()..][..self.record.len()];
        place[..count].copy_from_slice(&self.record[..count]);
        if count < self.record.len() {
            place[count] = self.record[count] | left;
        }
        chip
    }

    /// Reads the place as the format has it.
    pub fn stands(&self, cut: &[u8]) -> Stands {
        let place = &cut[self.start()..][..self.s - self.place];
        let length = length_at(place);
        let key = u64::from_be_bytes(place[3..11].try_into().unwrap());
        match place[0] {
            255 => Stands::Nothing,
            1 if length < 15 || length > place.len() => Stands::Bad(CORRUPT_DATA),
            1 if key != self.key => Stands::Other(key, length),
            1 if place[..length] == self.record[..] => Stands::Whole,
            1 => Stands::Own,
            _ => Stands::Bad(UNSUPPORTED_VERSION),
        }
    }

    /// Every call that somebody may try next.
    pub fn answers(&self, cut: &[u8], stands: &Stands) {
        match stands {
            Stands::Nothing => assert_eq!(cut, self.before),
            Stands::Bad(refusal) => self.bad(cut, *refusal),
            Stands::Other(key, length) => self.other(cut, *key, *length),
            Stands::Own => self.own(cut),
            Stands::Whole => assert_eq!(cut, self.whole),
        }
        let mut retried = cut.to_vec();
        let retry = append(&mut retried, self.s, N, self.key, &self.value);
        match stands {
            Stands::Nothing => assert!(retry == OK && retried == self.whole),
            Stands::Bad(refusal) => assert!(retry == *refusal && retried == cut),
            Stands::Other(_, length) => self.retried(cut, &retried, retry, self.place + length),
            Stands::Own | Stands::Whole => assert!(retry == KEY_ALREADY_EXISTS && retried == cut),
        }
        if *stands == Stands::Whole {
            assert_eq!(get(cut, self.s, N, self.key), Ok(self.value.clone()));
        }
        self.neighbours(cut, stands);
        self.collects(cut, stands);
    }

    /// What an append of the same again says where the home region's free place is here.
    pub fn retry_from(&self, free: usize) -> u32 {
        if self.region_with_room(&self.before, free).is_some() {
            OK
        } else {
            FLASH_FULL
        }
    }

    /// The first region in probe order with room, and the place there.
    fn region_with_room(&self, chip: &[u8], free: usize) -> Option<usize> {
        let frees = self.order.iter().map(|&r| (r, if r == self.order[0] { free } else { free_place(&chip[r * self.s..][..self.s]) }));
        frees.filter(|(_, free)| free + self.record.len() <= self.s).map(|(region, free)| region * self.s + free).next()
    }

    /// The retry put the record behind what stands, in the home region or the next with room; or there is none.
    fn retried(&self, cut: &[u8], retried: &[u8], retry: u32, free: usize) {
        assert_eq!(retry, self.retry_from(free), "{self:?}");
        let mut wanted = cut.to_vec();
        if let Some(start) = self.region_with_room(cut, free) {
            wanted[start..start + self.record.len()].copy_from_slice(&self.record);
            assert_eq!(get(retried, self.s, N, self.key), Ok(self.value.clone()));
        }
        assert_eq!(retried, wanted);
    }

    /// A bad place: nothing can be done with the key, and nothing new can be appended.
    fn bad(&self, cut: &[u8], refusal: u32) {
        let mut chip = cut.to_vec();
        assert_eq!(said(get(&chip, self.s, N, self.key)), refusal);
        assert_eq!(said(image::invalidate_key(&mut chip, self.s, N, self.key)), refusal);
        assert_eq!(said(image::zeroise_key(&mut chip, self.s, N, self.key)), refusal);
        assert_eq!(said(image::invalidate_key(&mut chip, self.s, N, neighbour(SPILLED, self.order[0]))), refusal);
        assert_eq!(append(&mut chip, self.s, N, neighbour(ABSENT, self.order[2]), &[]), refusal);
        assert_eq!(append(&mut chip, self.s, N, neighbour(APART, self.order[2]), &[]), KEY_ALREADY_EXISTS);
        assert_eq!(chip, cut);
        assert_eq!(said(image::invalidate_key(&mut chip, self.s, N, neighbour(APART, self.order[2]))), OK);
    }

    /// A record of another key: the key itself is absent; the other one can be removed, unless it is 2^64 - 1.
    fn other(&self, cut: &[u8], key: u64, length: usize) {
        let (s, mut chip) = (self.s, cut.to_vec());
        assert_eq!(said(get(&chip, s, N, self.key)), KEY_NOT_FOUND);
        assert_eq!(said(image::invalidate_key(&mut chip, s, N, self.key)), KEY_NOT_FOUND);
        assert_eq!(said(image::zeroise_key(&mut chip, s, N, self.key)), KEY_NOT_FOUND);
        if key == u64::MAX {
            assert_eq!(said(image::invalidate_key(&mut chip, s, N, key)), BAD_KEY);
            return assert_eq!(chip, cut);
        }
        assert_eq!(said(get(&chip, s, N, key)), INVALID_CHECK_SUM);
        assert_eq!(append(&mut chip, s, N, key, &[]), KEY_ALREADY_EXISTS);
        assert_eq!(chip, cut);
        assert_eq!(said(image::invalidate_key(&mut chip, s, N, key)), OK);
        assert_eq!(said(get(&chip, s, N, key)), KEY_NOT_FOUND);
        self.removed(&chip, self.place + length);
    }

    /// The key's own record with a wrong checksum: it can be removed either way.
    fn own(&self, cut: &[u8]) {
        let (s, mut chip) = (self.s, cut.to_vec());
        assert_eq!(said(get(&chip, s, N, self.key)), INVALID_CHECK_SUM, "{self:?}");
        if !self.value.is_empty() {
            let mut short = vec![0; self.value.len() - 1];
            assert_eq!(image::get_key(&chip, s, N, self.key, &mut short), Err(Refusal::BufferTooSmall(self.value.len())));
        }
        let mut zeroised = cut.to_vec();
        assert_eq!(said(image::zeroise_key(&mut zeroised, s, N, self.key)), OK);
        self.removed(&zeroised, self.place + self.record.len());
        assert_eq!(said(image::invalidate_key(&mut chip, s, N, self.key)), OK);
        self.removed(&chip, self.place + self.record.len());
    }

    /// What was left is dead: the append goes through if there is room, and the region is collected if nothing else lives there.
    fn removed(&self, chip: &[u8], free: usize) {
        let mut retried = chip.to_vec();
        let retry = append(&mut retried, self.s, N, self.key, &self.value);
        self.retried(chip, &retried, retry, free);
        let dead = if self.behind == Behind::Live { 1 } else { 2 };
        let mut collected = chip.to_vec();
        assert_eq!(image::garbage_collect(&mut collected, self.s, N), Ok(dead * self.s));
        let home = &collected[self.order[0] * self.s..][..self.s];
        assert_eq!(home.iter().all(|&byte| byte == 255), self.behind != Behind::Live);
    }

    /// A dead record of this length stands at the place.
    pub fn answers_when_dead(&self, chip: &[u8], length: usize) {
        let mut again = chip.to_vec();
        assert_eq!(said(get(chip, self.s, N, self.key)), KEY_NOT_FOUND);
        assert_eq!(said(image::invalidate_key(&mut again, self.s, N, self.key)), KEY_NOT_FOUND);
        assert_eq!(said(image::zeroise_key(&mut again, self.s, N, self.key)), KEY_NOT_FOUND);
        assert_eq!(again, chip);
        self.removed(chip, self.place + length);
        self.neighbours(chip, &Stands::Nothing);
    }

    /// A key that is found before the bad place is found as ever; one whose lookup comes by is refused, stored or not.
    pub fn neighbours(&self, cut: &[u8], stands: &Stands) {
        let says = |key: u64| said(get(cut, self.s, N, key));
        let passing = |else_says: u32| if let Stands::Bad(refusal) = stands { *refusal } else { else_says };
        assert_eq!(get(cut, self.s, N, neighbour(APART, self.order[2])), Ok(vec![8; 6]));
        assert_eq!(says(neighbour(SPILLED, self.order[0])), passing(OK));
        assert_eq!(says(neighbour(ABSENT, self.order[0])), passing(KEY_NOT_FOUND));
        assert_eq!(says(neighbour(GONE, self.order[3])), passing(KEY_NOT_FOUND));
        if self.behind == Behind::Live {
            assert_eq!(get(cut, self.s, N, neighbour(NEAR, self.order[0])), Ok(vec![5; 4]));
        }
    }

    /// Collect stops at a bad place that no live record comes before in its region, with the regions before it collected.
    fn collects(&self, cut: &[u8], stands: &Stands) {
        let (s, home, dead) = (self.s, self.order[0], self.order[3]);
        let home_dead = self.behind == Behind::Dead && *stands == Stands::Nothing;
        let (mut wanted, mut chip) = (cut.to_vec(), cut.to_vec());
        let stops = matches!(stands, Stands::Bad(_)) && self.behind != Behind::Live;
        if !stops || dead < home {
            wanted[dead * s..][..s].fill(255);
        }
        if home_dead {
            wanted[home * s..][..s].fill(255);
        }
        let answer = image::garbage_collect(&mut chip, s, N);
        match stands {
            Stands::Bad(refusal) if stops => assert_eq!(said(answer), *refusal),
            _ => assert_eq!(answer, Ok(s * if home_dead { 2 } else { 1 })),
        }
        assert_eq!(chip, wanted, "{self:?} {stands:?}");
    }

    /// No record stands at the place, but it is not blank.
    pub fn place_not_blank(&self, cut: &[u8]) {
        let mut chip = cut.to_vec();
        assert_eq!(said(get(&chip, self.s, N, self.key)), KEY_NOT_FOUND);
        assert_eq!(append(&mut chip, self.s, N, self.key, &self.value), CORRUPT_DATA);
        assert_eq!(chip, cut);
        self.neighbours(&chip, &Stands::Nothing);
        let elsewhere = neighbour(ABSENT, self.order[2]);
        assert_eq!(append(&mut chip, self.s, N, elsewhere, &[1]), OK);
        assert_eq!(get(&chip, self.s, N, elsewhere), Ok(vec![1]));
        let freed = if self.behind == Behind::Dead { 2 } else { 1 };
        assert_eq!(image::garbage_collect(&mut chip, self.s, N), Ok(freed * self.s));
    }
}

/// A scene of each size with each key, each length and each record behind which it is written.
pub fn scenes<'a>(sizes: &'a [usize], keys: &'a [u64], lengths: &'a [usize], behinds: &'a [Behind]) -> impl Iterator<Item = Scene> + 'a {
    (0..sizes.len() * keys.len() * lengths.len() * behinds.len()).map(move |turn| {
        let (turn, behind) = (turn / behinds.len(), behinds[turn % behinds.len()]);
        let (turn, length) = (turn / lengths.len(), lengths[turn % lengths.len()]);
        Scene::new(sizes[turn / keys.len()], keys[turn % keys.len()], length, behind)
    })
}

fn chip_before(s: usize, order: &[usize], behind: Behind) -> Vec<u8> {
    let mut chip = vec![255; s * N];
    let fills = neighbour(FILLS, order[0]);
    assert_eq!(append(&mut chip, s, N, fills, &vec![0; (s - 15).min(4079)]), OK);
    assert_eq!(append(&mut chip, s, N, neighbour(SPILLED, order[0]), &[7; 5]), OK);
    assert_eq!(said(image::invalidate_key(&mut chip, s, N, fills)), OK);
    assert_eq!(image::garbage_collect(&mut chip, s, N), Ok(s));
    assert_eq!(append(&mut chip, s, N, neighbour(APART, order[2]), &[8; 6]), OK);
    assert_eq!(append(&mut chip, s, N, neighbour(GONE, order[3]), &[9; 3]), OK);
    assert_eq!(said(image::invalidate_key(&mut chip, s, N, neighbour(GONE, order[3]))), OK);
    if behind != Behind::Nothing {
        assert_eq!(append(&mut chip, s, N, neighbour(NEAR, order[0]), &[5; 4]), OK);
    }
    if behind == Behind::Dead {
        assert_eq!(said(image::invalidate_key(&mut chip, s, N, neighbour(NEAR, order[0]))), OK);
    }
    chip
}
