//! The stepped form and the driver over it against the one-call form: same
//! answer, image and buffer, and the services that R9 lists.

use crate::by_store::{names_failure, on_store, WAYS};
use crate::host::{apply, Host};
use crate::images::{key, make, KEYS, KINDS};
use crate::ours;
use crate::prng::Prng;
use crate::report::hex;
use crate::stepping::{start, Drive};
use crate::straight::{self, services, Answer, Call, Outcome, Refusal, Service};

fn call<'a>(rng: &mut Prng, s: usize, stretch: &'a [u8]) -> Call<'a> {
    let key = key(rng);
    match rng.below(12) {
        0..=3 => Call::Get { key },
        4..=6 => {
            let length = rng.pick(&[0, 1, 20, s / 2, s - 15, s - 14, 4_079, 4_080]);
            Call::Append { key, value: &stretch[..length] }
        }
        7 => Call::Invalidate { key },
        8 => Call::Zeroise { key },
        9 | 10 => Call::Collect,
        _ => Call::Initialise { key },
    }
}

/// What a run must come to: answer, image, buffer and services done.
struct Wanted {
    outcome: Outcome,
    image: Vec<u8>,
    buffer: Vec<u8>,
    done: Vec<Service>,
    /// The service that must fail, if one must.
    fails: Option<Service>,
}

fn wanted(
    image: &[u8],
    s: usize,
    n: usize,
    call: Call,
    fill: &[u8],
    fails_at: Option<usize>,
) -> Wanted {
    let list = services(image, s, n, call);
    let mut after = image.to_vec();
    let mut buffer = fill.to_vec();
    if let Some(at) = fails_at.filter(|at| *at < list.len()) {
        list[..at].iter().for_each(|service| apply(&mut after, s, service));
        let outcome = Err(Refusal::FlashFailed);
        let (done, fails) = (list[..at].to_vec(), Some(list[at].clone()));
        return Wanted { outcome, image: after, buffer, done, fails };
    }
    let outcome = ours::run(&mut after, s, n, call, &mut buffer);
    Wanted { outcome, image: after, buffer, done: list, fails: None }
}

#[derive(Default)]
struct Counts {
    stepped: u64,
    by_store: u64,
    failed: u64,
    misused: u64,
    services: u64,
}

fn check(
    form: &str,
    want: &Wanted,
    outcome: Outcome,
    host: &Host,
    buffer: &[u8],
) -> Result<(), String> {
    let same = outcome == want.outcome
        && host.image == want.image
        && buffer == want.buffer
        && host.done == want.done;
    if same {
        return Ok(());
    }
    Err(format!(
        "{form}: {outcome:?}, wanted {:?}\n  services {:?}\n  wanted   {:?}\n  image as wanted: {}, buffer: {}",
        want.outcome,
        host.done,
        want.done,
        host.image == want.image,
        buffer == want.buffer
    ))
}

fn operation(
    rng: &mut Prng,
    image: &[u8],
    s: usize,
    n: usize,
    stretch: &[u8],
    counts: &mut Counts,
) -> Result<(), String> {
    let call = call(rng, s, stretch);
    let buffer_len = rng.pick(&[0, 1, 3, 20, s, 4_096]);
    let fill = &stretch[..if matches!(call, Call::Get { .. }) { buffer_len } else { rng.below(3) }];
    let slow = rng.pick(&[0, 2, 3, 10]);
    let fails_at = rng.one_in(3).then(|| rng.below(2 * n + 2));
    let want = wanted(image, s, n, call, fill, fails_at);
    let told = |what| {
        format!(
            "S {s}, N {n}, {call:?}, slow {slow}, fails at {fails_at:?}\n{what}\n  image {}",
            hex(image)
        )
    };

    let mut host = Host::new(image, s, slow, fails_at, rng.clone());
    let mut buffer = fill.to_vec();
    let mut drive = Drive { s, n, call, rng, misused: 0 };
    let outcome = drive.run(&mut host, &mut buffer).map_err(told)?;
    counts.misused += drive.misused;
    check("stepped", &want, outcome, &host, &buffer).map_err(told)?;
    counts.stepped += 1;
    counts.failed += u64::from(outcome == Err(Refusal::FlashFailed));
    counts.services += host.done.len() as u64;

    for (form, way) in WAYS {
        let mut buffer = fill.to_vec();
        let host = Host::new(image, s, slow, fails_at, rng.clone());
        let (said, host) = on_store(way, host, n, call, &mut buffer);
        if !names_failure(&said, want.fails.as_ref(), want.done.len()) {
            return Err(told(format!("{form}: {said:?}, and {:?} had to fail", want.fails)));
        }
        check(form, &want, ours::outcome(said), &host, &buffer).map_err(told)?;
    }
    counts.by_store += 1;
    Ok(())
}

/// Every start at the edges of its numbers: refusals 1, 2 and 3 in their order.
fn starts(stretch: &[u8]) -> Result<u64, String> {
    let mut count = 0;
    let sizes = [0, 63, 64, 65, 4_096, 4_097, usize::MAX];
    for (s, n) in sizes.iter().flat_map(|s| [0, 1, 64, 65, usize::MAX].map(|n| (*s, n))) {
        for key in KEYS {
            let appends =
                [0, 1, 4_079, 4_080, 4_081].map(|l| Call::Append { key, value: &stretch[..l] });
            let others = [
                Call::Get { key },
                Call::Invalidate { key },
                Call::Zeroise { key },
                Call::Collect,
                Call::Initialise { key },
            ];
            for call in appends.into_iter().chain(others) {
                count += 1;
                let want = refusal_at_start(s, n, call);
                let got = start(s, n, call, 9).err().map(ours::refusal);
                if got != want {
                    return Err(format!("start S {s}, N {n}, {call:?}: {got:?}, wanted {want:?}"));
                }
            }
        }
    }
    Ok(count)
}

fn refusal_at_start(s: usize, n: usize, call: Call) -> Option<Refusal> {
    if !(64..=4_096).contains(&s) || !(1..=64).contains(&n) {
        return Some(Refusal::BadGeometry);
    }
    if call.key().is_some_and(|key| !straight::key_allowed(key)) {
        return Some(Refusal::BadKey);
    }
    match call {
        Call::Append { value, .. } if value.len() > straight::LARGEST => {
            Some(Refusal::ObjectTooLarge)
        }
        _ => None,
    }
}

/// `rounds` images of each kind, four operations each.
pub fn run(seed: u64, rounds: usize) -> Result<(), String> {
    let mut rng = Prng::new(seed);
    let stretch = rng.bytes(8_192);
    let begun = starts(&stretch)?;
    let mut counts = Counts::default();
    for round in 0..rounds {
        for kind in KINDS {
            let small = !rng.one_in(100);
            let s = if small { 64 + rng.below(120) } else { 4_090 + rng.below(7) };
            let n = 1 + rng.below(if small { 6 } else { 3 });
            let mut image = make(&mut rng, kind, s, n);
            for _ in 0..4 {
                operation(&mut rng, &image, s, n, &stretch, &mut counts).map_err(|what| {
                    format!("driver, seed {seed}, round {round}, {kind:?}\n{what}")
                })?;
                // The chip goes on a little, so that appends meet appends.
                let _: Result<Answer, Refusal> =
                    straight::append(&mut image, s, n, key(&mut rng), b"on");
            }
        }
    }
    println!(
        "driver: {begun} starts; {} operations stepped, {} by the store in each of its ways;",
        counts.stepped, counts.by_store
    );
    println!(
        "  {} of each ended by a failed service, {} services in their order, {} misuses refused or kept within the chip",
        counts.failed, counts.services, counts.misused
    );
    Ok(())
}
