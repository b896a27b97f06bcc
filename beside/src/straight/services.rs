//! The flash services of an operation, in their order.

use super::walk::{probe, seek, Event, HEADER};
use super::{append, Fate, LARGEST};
use super::{collect_region, geometry, initialise_must_erase, key_allowed};

#[derive(Clone, PartialEq, Eq, Debug)]
pub enum Service {
    Read(usize),
    Write { place: usize, bytes: Vec<u8> },
    Erase(usize),
}

#[derive(Clone, Copy, PartialEq, Eq, Debug)]
pub enum Call<'a> {
    Get { key: u64 },
    Append { key: u64, value: &'a [u8] },
    Invalidate { key: u64 },
    Zeroise { key: u64 },
    Collect,
    Initialise { key: u64 },
}

/// Names of the operations, by their number.
pub const NAMES: [&str; 6] = ["get", "append", "invalidate", "zeroise", "collect", "initialise"];

impl Call<'_> {
    pub fn number(&self) -> usize {
        match self {
            Call::Get { .. } => 0,
            Call::Append { .. } => 1,
            Call::Invalidate { .. } => 2,
            Call::Zeroise { .. } => 3,
            Call::Collect => 4,
            Call::Initialise { .. } => 5,
        }
    }

    pub fn key(&self) -> Option<u64> {
        match *self {
            Call::Collect => None,
            Call::Get { key } | Call::Invalidate { key } | Call::Zeroise { key } => Some(key),
            Call::Append { key, .. } | Call::Initialise { key } => Some(key),
        }
    }
}

fn refused_at_start(image: &[u8], s: usize, n: usize, call: Call) -> bool {
    let key = call.key();
    let too_large = matches!(call, Call::Append { value, .. } if value.len() > LARGEST);
    geometry(image, s, n).is_err() || key.is_some_and(|k| !key_allowed(k)) || too_large
}

/// Reads up to the deciding region, and where the live record lies.
fn reads(image: &[u8], s: usize, n: usize, key: u64) -> (Vec<Service>, Option<(usize, usize)>) {
    let mut list = Vec::new();
    for r in probe(key, n) {
        list.push(Service::Read(r));
        match seek(&image[r * s..][..s], key) {
            Event::End { .. } => {}
            Event::Bad(_) => return (list, None),
            Event::Live { o, length } => return (list, Some((r * s + o, length))),
        }
    }
    (list, None)
}

fn change(image: &[u8], s: usize, n: usize, key: u64, zeroise: bool) -> Vec<Service> {
    let (mut list, found) = reads(image, s, n, key);
    if let Some((place, length)) = found {
        let dead = image[place + 1] & 0x7f;
        list.push(if zeroise {
            let mut bytes = vec![0; length];
            bytes[..HEADER].copy_from_slice(&image[place..place + HEADER]);
            bytes[1] = dead;
            Service::Write { place, bytes }
        } else {
            Service::Write { place: place + 1, bytes: vec![dead] }
        });
    }
    list
}

fn appending(image: &[u8], s: usize, n: usize, key: u64, value: &[u8]) -> Vec<Service> {
    let (mut list, found) = reads(image, s, n, key);
    if found.is_some() {
        return list;
    }
    // A written append is the one byte range that differs from the image before.
    let mut after = image.to_vec();
    if append(&mut after, s, n, key, value).is_ok() {
        let place = super::place_for(image, s, n, key, value.len()).expect("a place was found");
        let bytes = after[place..place + value.len() + super::FRAME].to_vec();
        list.push(Service::Write { place, bytes });
    }
    list
}

fn collecting(image: &[u8], s: usize) -> Vec<Service> {
    let mut list = Vec::new();
    for (r, region) in image.chunks(s).enumerate() {
        list.push(Service::Read(r));
        match collect_region(region) {
            Fate::Bad(_) => return list,
            Fate::Due => list.push(Service::Erase(r)),
            Fate::Stays => {}
        }
    }
    list
}

fn initialising(image: &[u8], s: usize, n: usize, key: u64) -> Vec<Service> {
    let (mut list, _) = reads(image, s, n, key);
    if initialise_must_erase(image, s, n, key) {
        list.extend((0..n).map(Service::Erase));
        list.extend(appending(&vec![255; s * n], s, n, key, &[]));
    }
    list
}

pub fn services(image: &[u8], s: usize, n: usize, call: Call) -> Vec<Service> {
    if refused_at_start(image, s, n, call) {
        return Vec::new();
    }
    match call {
        Call::Get { key } => reads(image, s, n, key).0,
        Call::Append { key, value } => appending(image, s, n, key, value),
        Call::Invalidate { key } => change(image, s, n, key, false),
        Call::Zeroise { key } => change(image, s, n, key, true),
        Call::Collect => collecting(image, s),
        Call::Initialise { key } => initialising(image, s, n, key),
    }
}
