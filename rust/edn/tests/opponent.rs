//! The opponent of the bench answers as the library does: number, place, length and every byte of what is lent, on the stored set and on more
//! than a million generated texts and bytes. A comparison of speed with something that does less would say nothing.
mod gen;
#[path = "opponent/mod.rs"]
mod plain;
mod stored;

use gen::Rng;
use plain::{Answer, Opponent};

/// What the buffer holds before a call.
fn filled(n: usize) -> Vec<u8> {
    (0..n).map(|i| (i * 37 + 11) as u8).collect()
}

/// The number of an answer, and its value or place.
fn library<T>(answer: Result<T, edn::Error>, value: impl Fn(T) -> (usize, usize)) -> (u8, (usize, usize)) {
    answer.map_or_else(|e| (e.number(), (e.place(), 0)), |v| (0, value(v)))
}

fn opponent<T>(answer: Answer<T>, value: impl Fn(T) -> (usize, usize)) -> (u8, (usize, usize)) {
    answer.map_or_else(|e| (e.number, (e.place, 0)), |v| (0, value(v)))
}

struct Pair {
    opponent: Opponent,
    rng: Rng,
    /// How often each number was answered.
    tally: [usize; 18],
}

impl Pair {
    fn new(seed: u64) -> Self {
        Pair { opponent: Opponent::new(), rng: Rng::new(seed), tally: [0; 18] }
    }

    fn met(&self, wanted: &[usize], least: usize) {
        println!("answers 0 to 17: {:?}", self.tally);
        for &n in wanted {
            assert!(self.tally[n] >= least, "the inputs meet answer {n} only {} times", self.tally[n]);
        }
    }

    fn read(&mut self, text: &[u8], room: usize) -> (u8, usize) {
        let (mut a, mut b) = (filled(room), filled(room));
        let wanted = library(edn::read_into(text, &mut a), |n| (n, 0));
        let got = opponent(self.opponent.read(text, &mut b), |n| (n, 0));
        let shown = String::from_utf8_lossy(&text[..text.len().min(300)]);
        assert_eq!(got, wanted, "the text {shown:?} into {room}");
        assert!(a == b, "the bytes of {shown:?} into {room}");
        self.tally[wanted.0 as usize] += 1;
        (wanted.0, wanted.1 .0)
    }

    /// Reads into room enough, and then into too little, just enough, or a little more.
    fn read_about(&mut self, text: &[u8]) {
        let (number, length) = self.read(text, text.len() * 3 + 9);
        if number == 0 {
            let room = self.room(length);
            self.read(text, room);
        }
    }

    /// Too little room for a result, just enough, or a little more.
    fn room(&mut self, length: usize) -> usize {
        match self.rng.below(4) {
            0 => length.saturating_sub(1),
            1 => self.rng.below(length + 1),
            2 => length + self.rng.below(20),
            _ => length,
        }
    }

    fn check(&mut self, bytes: &[u8]) {
        let wanted = library(edn::check(bytes), |()| (0, 0));
        let got = opponent(self.opponent.check(bytes), |()| (0, 0));
        assert_eq!(got, wanted, "{:02x?}", &bytes[..bytes.len().min(100)]);
        self.tally[wanted.0 as usize] += 1;
    }

    fn look_up(&mut self, bytes: &[u8], path: &[u16]) -> u8 {
        let wanted = library(edn::locate(bytes, path), |part| (part.start, part.end));
        let got = opponent(self.opponent.look_up(bytes, path), |part| part);
        assert_eq!(got, wanted, "{path:?} in {:02x?}", &bytes[..bytes.len().min(100)]);
        self.tally[wanted.0 as usize] += 1;
        wanted.0
    }

    fn correct(&mut self, buffer: &[u8], used: usize, path: &[u16], text: &[u8]) {
        let (mut a, mut b) = (buffer.to_vec(), buffer.to_vec());
        let wanted = library(edn::correct_in(&mut a, used, path, text), |n| (n, 0));
        let got = opponent(self.opponent.correct(&mut b, used, path, text), |n| (n, 0));
        let shown = String::from_utf8_lossy(text);
        assert_eq!(got, wanted, "{shown:?} at {path:?} in {used} of {:02x?}", &buffer[..buffer.len().min(100)]);
        assert!(a == b, "the buffer after {shown:?} at {path:?} in {used} of {:02x?}", &buffer[..buffer.len().min(100)]);
        self.tally[wanted.0 as usize] += 1;
    }

    /// A path that leads somewhere, mostly.
    fn path(&mut self, bytes: &[u8]) -> Vec<u16> {
        let mut path = gen::path(&mut self.rng);
        for _ in 0..4 {
            if self.look_up(bytes, &path) == 0 {
                break;
            }
            path = gen::path(&mut self.rng);
        }
        path
    }

    /// A correction of an item of the bytes, good or bad.
    fn correct_about(&mut self, bytes: &[u8]) {
        let path = self.path(bytes);
        let rng = &mut self.rng;
        let (text, used) = gen::correction(rng, bytes.len());
        let more = if rng.once(3) { 0 } else { rng.below(40) };
        let mut buffer = bytes.to_vec();
        buffer.resize(bytes.len() + more, 0xa5);
        self.correct(&buffer, used, &path, &text);
    }

    fn print(&mut self, bytes: &[u8], room: usize) -> (u8, usize) {
        let (mut a, mut b) = (filled(room), filled(room));
        let wanted = library(edn::print_into(bytes, &mut a), |n| (n, 0));
        let got = opponent(self.opponent.print(bytes, &mut b), |n| (n, 0));
        assert_eq!(got, wanted, "{:02x?} into {room}", &bytes[..bytes.len().min(100)]);
        assert!(a == b, "the text of {:02x?} into {room}", &bytes[..bytes.len().min(100)]);
        self.tally[wanted.0 as usize] += 1;
        (wanted.0, wanted.1 .0)
    }

    /// Prints into room enough, and then into too little, just enough, or a little more.
    fn print_about(&mut self, bytes: &[u8]) {
        let (number, length) = self.print(bytes, (bytes.len() * 12 + 9).min(70_000));
        if number == 0 {
            let room = self.room(length);
            self.print(bytes, room);
        }
    }

    /// Every operation on bytes.
    fn byte_side(&mut self, bytes: &[u8]) {
        self.check(bytes);
        self.print_about(bytes);
        self.correct_about(bytes);
    }
}

#[test]
fn reads_the_stored_set() {
    let mut pair = Pair::new(1);
    for size in [stored::SHORT, 5_000, stored::LONG] {
        let shapes = stored::shapes_near(size).into_iter().chain(stored::hostile(size)).chain([stored::small()]);
        for sheet in shapes.flat_map(|shape| shape.sheets) {
            let (number, _) = pair.read(&sheet.text, sheet.room);
            assert_eq!(number, sheet.number, "{} near {size}", sheet.name);
        }
    }
}

#[test]
fn reads_soup_500_000() {
    let mut pair = Pair::new(101);
    for _ in 0..500_000 {
        let text = gen::soup(&mut pair.rng);
        pair.read_about(&text);
    }
    pair.met(&[0, 3, 4, 5, 6, 7, 8, 9, 11, 12, 13, 14], 300);
}

#[test]
fn reads_sheets_500_000() {
    let mut pair = Pair::new(102);
    for i in 0..500_000 {
        let mut text = gen::text(&mut pair.rng, i % 2 == 0, 300);
        if i % 3 == 2 {
            gen::damage(&mut pair.rng, &mut text, true);
        }
        pair.read_about(&text);
    }
    pair.met(&[0, 2, 3, 4, 5, 6, 7, 8, 9, 10, 11, 12, 13, 14], 100);
}

#[test]
fn reads_long_texts_2_000() {
    let mut pair = Pair::new(103);
    for _ in 0..2_000 {
        let text = gen::long_text(&mut pair.rng);
        pair.read_about(&text);
    }
    pair.met(&[0, 1, 2, 3, 8, 10, 11, 14], 10);
}

#[test]
fn walks_bytes_200_000() {
    let mut pair = Pair::new(104);
    for i in 0..200_000 {
        let mut bytes = gen::bytes(&mut pair.rng, i % 2 == 0, 300);
        if i % 4 == 3 {
            gen::damage(&mut pair.rng, &mut bytes, false);
        }
        pair.byte_side(&bytes);
    }
    pair.met(&[0, 1, 2, 3, 4, 5, 6, 7, 8, 9, 10, 11, 12, 13, 14, 15, 16, 17], 50);
}

#[test]
fn walks_noise_100_000() {
    let mut pair = Pair::new(105);
    for _ in 0..100_000 {
        let bytes = gen::noise(&mut pair.rng, 24);
        pair.byte_side(&bytes);
    }
}

#[test]
fn walks_long_bytes_1_000() {
    let mut pair = Pair::new(106);
    for _ in 0..1_000 {
        let bytes = gen::long_bytes(&mut pair.rng);
        pair.byte_side(&bytes);
    }
}
