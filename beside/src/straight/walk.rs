//! Keys, probe order, and the walk over one region.

use super::Refusal;

pub const HEADER: usize = 11;
pub const CHECKSUM: usize = 4;
pub const FRAME: usize = HEADER + CHECKSUM;

pub fn home(key: u64, n: usize) -> usize {
    (key % 65_536) as usize % n
}

/// home, home+1, home-1, home+2, ... without the numbers outside 0..n.
#[derive(Clone)]
pub struct Probe {
    home: usize,
    n: usize,
    turn: usize,
}

pub fn probe(key: u64, n: usize) -> Probe {
    Probe { home: home(key, n), n, turn: 0 }
}

impl Iterator for Probe {
    type Item = usize;

    #[inline]
    fn next(&mut self) -> Option<usize> {
        // Turn 0 is home, odd turns go up, even ones down; after 2n turns
        // every number in range has come.
        while self.turn < 2 * self.n {
            let away = self.turn.div_ceil(2);
            let up = self.turn % 2 == 1;
            self.turn += 1;
            if up && self.home + away < self.n {
                return Some(self.home + away);
            }
            if !up && away <= self.home {
                return Some(self.home - away);
            }
        }
        None
    }
}

/// What stands at one place of a region.
#[derive(Clone, Copy, PartialEq, Eq, Debug)]
pub enum Stand {
    /// The walk ends; the place is where it ended.
    End,
    Bad(Refusal),
    Record {
        length: usize,
        live: bool,
    },
}

/// Steps 1 to 5 of the walk, at place `o` of `region`.
#[inline]
pub fn stand(region: &[u8], o: usize) -> Stand {
    let left = region.len() - o;
    if left < FRAME || region[o] == 255 {
        return Stand::End;
    }
    if region[o] != 1 {
        return Stand::Bad(Refusal::UnsupportedVersion);
    }
    let length = (region[o + 1] as usize & 15) * 256 + region[o + 2] as usize;
    if length < FRAME || length > left {
        return Stand::Bad(Refusal::CorruptData);
    }
    Stand::Record { length, live: region[o + 1] & 0x80 != 0 }
}

#[inline]
pub fn key_at(region: &[u8], o: usize) -> u64 {
    let mut bytes = [0; 8];
    bytes.copy_from_slice(&region[o + 3..o + 11]);
    u64::from_be_bytes(bytes)
}

/// The event that decides a walk for one key.
#[derive(Clone, Copy, PartialEq, Eq, Debug)]
pub enum Event {
    Live { o: usize, length: usize },
    Bad(Refusal),
    End { o: usize },
}

#[inline]
pub fn seek(region: &[u8], key: u64) -> Event {
    let mut o = 0;
    loop {
        match stand(region, o) {
            Stand::End => return Event::End { o },
            Stand::Bad(why) => return Event::Bad(why),
            Stand::Record { length, live } => {
                if live && key_at(region, o) == key {
                    return Event::Live { o, length };
                }
                o += length;
            }
        }
    }
}

/// A record as a walk meets it; `o` is its place in the region.
#[derive(Clone, Copy, PartialEq, Eq, Debug)]
pub struct Record {
    pub o: usize,
    pub length: usize,
    pub flags: u8,
    pub live: bool,
    pub key: u64,
}

/// A whole region: its records, the place where the walk ended, and why if bad.
#[derive(Clone, PartialEq, Eq, Debug)]
pub struct Region {
    pub records: Vec<Record>,
    pub end: usize,
    pub bad: Option<Refusal>,
}

pub fn records(region: &[u8]) -> Region {
    let mut seen = Region { records: Vec::new(), end: 0, bad: None };
    loop {
        let o = seen.end;
        match stand(region, o) {
            Stand::End => return seen,
            Stand::Bad(why) => {
                seen.bad = Some(why);
                return seen;
            }
            Stand::Record { length, live } => {
                let flags = region[o + 1] >> 4;
                seen.records.push(Record { o, length, flags, live, key: key_at(region, o) });
                seen.end += length;
            }
        }
    }
}
