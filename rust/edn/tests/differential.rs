//! The library against the plain model, on more than a million generated inputs: each test says how many. Seeds are fixed; where the two
//! differ the panic shows a test to add to kept.rs.
mod both;
mod gen;
mod model;

use both::{same, Case};
use gen::Rng;

/// A buffer that is too small, just right, or larger than a result of n bytes needs.
fn room(rng: &mut Rng, n: usize) -> usize {
    match rng.below(6) {
        0 => n.saturating_sub(1),
        1 => 0,
        2 => rng.below(n + 1),
        3 => n + rng.below(20),
        _ => n,
    }
}

fn values(rng: &mut Rng) -> usize {
    if rng.once(10) {
        rng.below(4)
    } else {
        2
    }
}

fn read(rng: &mut Rng, text: Vec<u8>) -> u8 {
    let n = model::encode(&text).map_or(8, |b| b.len());
    let room = room(rng, n);
    same(Case::Read { text, room, values: values(rng) })
}

/// How often each number was answered: a comparison that meets no refusal of a kind says nothing of it.
struct Tally([usize; 18]);

impl Tally {
    fn met(&self, wanted: &[usize], least: usize) {
        println!("answers 0 to 17: {:?}", self.0);
        for &n in wanted {
            assert!(self.0[n] >= least, "the inputs meet answer {n} only {} times", self.0[n]);
        }
    }
}

/// Check, print, look up twice and correct, on the same bytes. What check answers.
fn byte_side(rng: &mut Rng, bytes: Vec<u8>) -> u8 {
    let number = same(Case::Check { bytes: bytes.clone(), values: values(rng) });
    let n = model::text_of(&bytes).map_or(8, |t| t.len());
    let room = room(rng, n);
    same(Case::Print { bytes: bytes.clone(), room, values: values(rng) });
    for _ in 0..2 {
        let path = gen::path(rng);
        same(Case::LookUp { bytes: bytes.clone(), path, values: values(rng) });
    }
    correct(rng, bytes);
    number
}

fn correct(rng: &mut Rng, bytes: Vec<u8>) -> u8 {
    let mut path = gen::path(rng);
    // mostly a path that leads somewhere
    for _ in 0..8 {
        if model::look_up(&bytes, &path).is_ok() {
            break;
        }
        path = gen::path(rng);
    }
    let (text, used) = gen::correction(rng, bytes.len());
    let mut buffer = bytes;
    for _ in 0..if rng.once(3) { 0 } else { rng.below(40) } {
        buffer.push(rng.next() as u8);
    }
    same(Case::Correct { buffer, used, path, text, values: values(rng) })
}

#[test]
fn token_soup_400_000() {
    let mut tally = Tally([0; 18]);
    let mut rng = Rng::new(1);
    for _ in 0..400_000 {
        let text = gen::soup(&mut rng);
        tally.0[read(&mut rng, text) as usize] += 1;
    }
    tally.met(&[0, 3, 4, 5, 6, 7, 8, 9, 11, 12, 13, 14], 100);
}

#[test]
fn sheets_200_000() {
    let mut tally = Tally([0; 18]);
    let mut rng = Rng::new(2);
    for i in 0..200_000 {
        let mut text = gen::text(&mut rng, i % 2 == 0, 400);
        if i % 4 == 3 {
            gen::damage(&mut rng, &mut text, true);
        }
        tally.0[read(&mut rng, text) as usize] += 1;
    }
    tally.met(&[0, 2, 3, 4, 5, 6, 7, 8, 9, 10, 11, 12, 13, 14], 20);
}

#[test]
fn bytes_200_000() {
    let mut tally = Tally([0; 18]);
    let mut rng = Rng::new(3);
    for i in 0..200_000 {
        let mut bytes = gen::bytes(&mut rng, i % 2 == 0, 400);
        if i % 4 == 3 {
            gen::damage(&mut rng, &mut bytes, false);
        }
        tally.0[byte_side(&mut rng, bytes) as usize] += 1;
    }
    tally.met(&[0, 2, 6, 10, 13, 15, 16], 100);
}

#[test]
fn noise_200_000() {
    let mut rng = Rng::new(4);
    for _ in 0..200_000 {
        let noise = gen::noise(&mut rng, 24);
        byte_side(&mut rng, noise.clone());
        same(Case::Read { text: noise, room: 30, values: 2 });
    }
}

#[test]
fn corrections_200_000() {
    let mut tally = Tally([0; 18]);
    let mut rng = Rng::new(5);
    for i in 0..200_000 {
        let bytes = gen::bytes(&mut rng, i % 8 > 0, 200);
        tally.0[correct(&mut rng, bytes) as usize] += 1;
    }
    tally.met(&[0, 1, 2, 3, 4, 5, 6, 7, 8, 9, 10, 11, 12, 13, 14, 15, 16, 17], 50);
}

/// Every text of one or two bytes, and every bytes of one, two or three: all of them, not a sample.
#[test]
fn all_short_ones() {
    for a in 0..=255u8 {
        for b in 0..=255u8 {
            same(Case::Read { text: vec![a, b], room: 20, values: 1 });
            same(Case::Check { bytes: vec![a, b], values: 1 });
            same(Case::Print { bytes: vec![a, b], room: 20, values: 1 });
            for c in [0x00, 0x17, 0x18, 0x1f, 0x40, 0x5f, 0x61, 0x7f, 0x80, 0x9f, 0xa0, 0xbf, 0xc0, 0xdf, 0xe0, 0xf8, 0xf9, 0xff] {
                same(Case::Check { bytes: vec![a, b, c], values: 1 });
            }
        }
        same(Case::Read { text: vec![a], room: 9, values: 1 });
        same(Case::Check { bytes: vec![a], values: 1 });
        same(Case::Print { bytes: vec![a], room: 20, values: 1 });
    }
}

#[test]
fn long_texts_3_000() {
    let mut tally = Tally([0; 18]);
    let mut rng = Rng::new(6);
    for _ in 0..3_000 {
        let text = gen::long_text(&mut rng);
        tally.0[read(&mut rng, text) as usize] += 1;
    }
    tally.met(&[0, 1, 9, 10, 11, 14], 10);
}

#[test]
fn long_bytes_2_000() {
    let mut tally = Tally([0; 18]);
    let mut rng = Rng::new(7);
    for _ in 0..2_000 {
        let bytes = gen::long_bytes(&mut rng);
        tally.0[byte_side(&mut rng, bytes) as usize] += 1;
    }
    tally.met(&[0, 1, 15, 16], 10);
}

/// Every number within 400 of 2^64, and each of them with a digit more: in each base, of either sign, and as a tag's number.
#[test]
fn numbers_around_the_limit() {
    let mut tally = Tally([0; 18]);
    let limit = 1u128 << 64;
    for n in limit - 400..limit + 400 {
        for n in [n, n * 10 + n % 10, n * 16 + n % 16, n * 8 + n % 8, n * 2 + n % 2] {
            for number in [format!("{n}"), format!("{n:#x}"), format!("0x{n:X}"), format!("{n:#o}"), format!("{n:#b}")] {
                for text in [format!("-{number}"), format!("{number}(0)"), format!("{number}_3"), number] {
                    tally.0[same(Case::Read { text: text.into_bytes(), room: 10, values: 1 }) as usize] += 1;
                }
            }
        }
    }
    tally.met(&[0, 7], 5_000);
}

/// Lengths at and around the limit, of the text, the bytes, the result and the buffer.
#[test]
fn around_the_limit() {
    for n in 65_530..65_541usize {
        same(Case::Read { text: vec![b' '; n], room: 0, values: 1 });
        same(Case::Check { bytes: vec![0; n], values: 1 });
        same(Case::Print { bytes: vec![0; n], room: 70_000, values: 1 });
        // a result of n bytes: one string
        let mut text = b"'".to_vec();
        text.resize(n.min(65_535) - 1, b'x');
        text.push(b'\'');
        same(Case::Read { text: text.clone(), room: 70_000, values: 1 });
        // printed, n bytes and more
        let mut bytes = vec![0x59, 0, 0];
        let h = (n - 4) / 2;
        bytes[1..3].copy_from_slice(&(h as u16).to_be_bytes());
        bytes.resize(3 + h, 0xab);
        same(Case::Print { bytes: bytes.clone(), room: 70_000, values: 1 });
        same(Case::Print { bytes, room: n, values: 1 });
        // corrected: a result of n bytes, in buffers of n - 1, n and more
        for room in [n - 1, n, 70_000] {
            let mut buffer = vec![0; room];
            let used = 65_530.min(room);
            buffer[0] = 0x60;
            let text = format!("\"{}\"", "y".repeat(n - used));
            same(Case::Correct { buffer, used, path: vec![0], text: text.into_bytes(), values: 1 });
        }
        same(Case::Correct { buffer: vec![0; n], used: n, path: vec![65_529], text: b"1".to_vec(), values: 1 });
    }
}

/// Sizes for an indicator are exact past 65,535: the inside of `<<` that no result could hold.
#[test]
fn sizes_past_the_limit() {
    for n in 7_270..7_300 {
        let body = vec!["0_3"; n].join(",");
        for mark in ["", "_1", "_2", "_3"] {
            same(Case::Read { text: format!("<<{body}>>{mark}").into_bytes(), room: 70_000, values: 1 });
        }
    }
}
