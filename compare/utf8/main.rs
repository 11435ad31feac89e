//! Compares the proved UTF-8 check and the measures, through the static library, with the Rust
//! standard library on every text of up to three bytes, on every text of four and five bytes that stand
//! at the edges of the ranges of Unicode's Table 3-7, and on random texts, well-formed and damaged.

unsafe extern "C" {
    fn panel_is_utf8(text: *const u8, length: usize) -> bool;
    fn panel_usv_count(text: *const u8, length: usize) -> usize;
    fn panel_utf16_count(text: *const u8, length: usize) -> usize;
}

/// What both sides say of one text; the program ends at the first difference.
fn compare(text: &[u8]) -> bool {
    let (p, n) = (text.as_ptr(), text.len());
    // the library reads the slice and keeps nothing
    let ours = unsafe { (panel_is_utf8(p, n), panel_usv_count(p, n), panel_utf16_count(p, n)) };
    let theirs = match std::str::from_utf8(text) {
        Ok(s) => (true, s.chars().count(), s.encode_utf16().count()),
        Err(_) => (false, usize::MAX, usize::MAX),
    };
    assert_eq!(ours, theirs, "on {text:02x?}");
    theirs.0
}

/// A small generator of random numbers (xorshift), so that a run can be repeated.
struct Random(u64);

impl Random {
    fn next(&mut self) -> u64 {
        self.0 ^= self.0 << 13;
        self.0 ^= self.0 >> 7;
        self.0 ^= self.0 << 17;
        self.0
    }

    fn below(&mut self, n: u64) -> u64 {
        self.next() % n
    }

    fn scalar(&mut self) -> char {
        let top = [0x80, 0x800, 0x1_0000, 0x11_0000][self.below(4) as usize];
        char::from_u32(self.below(top) as u32).unwrap_or('\u{FFFD}')
    }
}

const EDGES: [u8; 26] = [
    0x00, 0x41, 0x7F, 0x80, 0x8F, 0x90, 0x9F, 0xA0, 0xBF, 0xC0, 0xC1, 0xC2, 0xDF, 0xE0, 0xE1, 0xEC, 0xED, 0xEE, 0xEF, 0xF0, 0xF1, 0xF3, 0xF4, 0xF5,
    0xF8, 0xFF,
];

/// Every text of `length` bytes out of `bytes`.
fn all_of(bytes: &[u8], length: u32) -> (u64, u64) {
    let (mut texts, mut accepted) = (0, 0);
    let mut text = vec![0; length as usize];
    for number in 0..(bytes.len() as u64).pow(length) {
        let mut rest = number;
        for place in &mut text {
            *place = bytes[(rest % bytes.len() as u64) as usize];
            rest /= bytes.len() as u64;
        }
        texts += 1;
        accepted += u64::from(compare(&text));
    }
    (texts, accepted)
}

/// Random texts of up to 40 scalars, each then damaged in up to three places.
fn random_texts(count: u64, random: &mut Random) -> (u64, u64) {
    let (mut texts, mut accepted) = (0, 0);
    for _ in 0..count {
        let mut text: Vec<u8> = (0..random.below(40)).map(|_| random.scalar()).collect::<String>().into_bytes();
        for _ in 0..random.below(4) {
            if text.is_empty() {
                break;
            }
            let at = random.below(text.len() as u64) as usize;
            match random.below(4) {
                0 => text[at] = random.next() as u8,
                1 => text[at] = EDGES[random.below(EDGES.len() as u64) as usize],
                2 => drop(text.remove(at)),
                _ => text.truncate(at),
            }
        }
        texts += 1;
        accepted += u64::from(compare(&text));
    }
    (texts, accepted)
}

fn main() {
    let all: Vec<u8> = (0..=255).collect();
    let mut total = (0, 0);
    let mut report = |what: &str, (texts, accepted): (u64, u64)| {
        total = (total.0 + texts, total.1 + accepted);
        println!("{what}: {texts} texts, {accepted} of them accepted by both sides");
    };
    for length in 0..=3 {
        report(&format!("every text of {length} bytes"), all_of(&all, length));
    }
    for length in 4..=5 {
        report(&format!("every text of {length} edge bytes"), all_of(&EDGES, length));
    }
    let mut random = Random(0x9E37_79B9_7F4A_7C15);
    report("random texts", random_texts(4_000_000, &mut random));
    println!("{} texts compared, {} accepted, no difference", total.0, total.1);
}
