//! The program's text, said straight: written from docs/RULES.md alone (R3.1, R3.4,
//! R4, R16.7 to R16.9). It shares no line with the straight version's walk.

pub const HEADER: &str = "region place state key bytes\n";
pub const REFUSED: &str = "refused\n";

/// The most bytes of an image that the program takes.
pub const MOST: usize = 65_536;

/// Digits alone, and the first is no zero. What no word can hold is no number here.
fn number(field: &[u8]) -> Option<usize> {
    let digits = field.iter().all(u8::is_ascii_digit);
    if !digits || field.is_empty() || field[0] == b'0' {
        return None;
    }
    std::str::from_utf8(field).ok()?.parse().ok()
}

pub fn limits(s: usize, n: usize) -> bool {
    (64..=4_096).contains(&s) && (1..=64).contains(&n)
}

/// S, N and the image of an input; nothing where it is refused.
pub fn chip(input: &[u8]) -> Option<(usize, usize, &[u8])> {
    let end = input.iter().position(|byte| *byte == b'\n')?;
    let fields: Vec<&[u8]> = input[..end].split(|byte| *byte == b' ').collect();
    let [s, n] = fields[..] else { return None };
    let (s, n) = (number(s)?, number(n)?);
    let image = &input[end + 1..];
    let taken = limits(s, n) && s * n <= MOST && image.len() == s * n;
    taken.then_some((s, n, image))
}

/// The lines of one region; `false` where its last one is that of a bad place.
fn region(text: &mut String, r: usize, bytes: &[u8]) -> bool {
    let mut rest = bytes;
    while rest.len() >= 15 && rest[0] != 255 {
        let place = bytes.len() - rest.len();
        let length = usize::from(rest[1] % 16) * 256 + usize::from(rest[2]);
        if rest[0] != 1 || length < 15 || length > rest.len() {
            *text += &format!("bad {r} {place}\n");
            return false;
        }
        let state = if rest[1] >= 128 { "live" } else { "dead" };
        let key: String = rest[3..11].iter().map(|byte| format!("{byte:02x}")).collect();
        *text += &format!("{r} {place} {state} {key} {}\n", length - 15);
        rest = &rest[length..];
    }
    true
}

/// The header line and the lines of a chip of regions of `s` bytes.
pub fn of_image(image: &[u8], s: usize) -> String {
    let mut text = String::from(HEADER);
    for (r, bytes) in image.chunks(s).enumerate() {
        if !region(&mut text, r, bytes) {
            break;
        }
    }
    text
}

/// All that the program writes for this input.
pub fn of_input(input: &[u8]) -> String {
    match chip(input) {
        Some((s, _, image)) => of_image(image, s),
        None => REFUSED.to_string(),
    }
}
