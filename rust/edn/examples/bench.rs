//! How fast the library is beside a plain Rust opponent that was written to be fast, in one run: `cargo run --release --example bench`.
//!
//! Every row is a ratio of least times, the two taken in turn: the library's over the opponent's, or, for growth, the library's time for a
//! byte near 60,000 bytes over that near 1,000. A shape has several texts, and all of them are timed together. Words behind `--` choose rows:
//! `-- read flat` takes those with both in them. Without them, it fails if a row is over its bound.
#[path = "../tests/opponent/mod.rs"]
mod opponent;
#[path = "../tests/stored/mod.rs"]
mod stored;

use opponent::Opponent;
use std::hint::black_box;
use std::process::ExitCode;
use std::time::{Duration, Instant};
use stored::{Shape, Sheet};

/// How long a row is measured.
const ROW: Duration = Duration::from_millis(600);
const LEAST_ROUNDS: usize = 20;
/// What is shorter than this is done again and again while the clock runs, which is too coarse for it.
const SAMPLE: f64 = 20e-6;
/// Inputs are timed in so many parts, each with its own least time: on a busy machine short times are the better ones.
const PARTS: usize = 5;

/// Each round is at another of so many places on the stack, a step apart; together they are some 4,096 bytes. A load waits for a store just before it
/// whose address ends alike in 12 bits, so a buffer on the stack can make others slow, by where the system has put both.
const PLACES: usize = 14;
const STEP: usize = 256;

#[inline(never)]
fn deeper(steps: usize, work: &mut dyn FnMut()) {
    let step = black_box([0u8; STEP]);
    match steps {
        0 => work(),
        _ => deeper(steps - 1, work),
    }
    black_box(&step);
}

/// The least seconds that each of two calls takes for all of its inputs, given their numbers. The two take turns: one has all of its inputs,
/// then the other, so that neither meets an input while the processor still foretells its branches from the time before.
fn least(inputs: [usize; 2], mut a: impl FnMut(usize), mut b: impl FnMut(usize)) -> (f64, f64) {
    let started = Instant::now();
    (0..inputs[0]).for_each(&mut a);
    let times = (SAMPLE * PARTS as f64 / started.elapsed().as_secs_f64()) as usize + 1;
    let mut least = [[f64::MAX; PARTS]; 2];
    let mut rounds = 0;
    while rounds < LEAST_ROUNDS || started.elapsed() < ROW {
        deeper(rounds % PLACES, &mut || {
            let calls = [&mut a as &mut dyn FnMut(usize), &mut b];
            for (call, (least, count)) in calls.into_iter().zip(least.iter_mut().zip(inputs)) {
                for (part, least) in least.iter_mut().enumerate() {
                    let clock = Instant::now();
                    for _ in 0..times {
                        (count * part / PARTS..count * (part + 1) / PARTS).for_each(&mut *call);
                    }
                    *least = least.min(clock.elapsed().as_secs_f64() / times as f64);
                }
            }
        });
        rounds += 1;
    }
    least.map(|parts| parts.iter().sum()).into()
}

/// The rows that were asked for, and how many of them are over their bound.
struct Table {
    wanted: Vec<String>,
    rows: usize,
    over: usize,
}

impl Table {
    fn wants(&self, operation: &str, sheet: &str) -> bool {
        let row = format!("{operation} {sheet}");
        self.wanted.iter().all(|w| row.contains(w.as_str()))
    }

    /// Some rows alone are a look at them; the whole table is a check.
    fn verdict(&self) -> ExitCode {
        ExitCode::from((self.wanted.is_empty() && self.over > 0) as u8)
    }

    /// A row, from the sums of so many calls of each.
    fn row(&mut self, operation: &str, shape: &str, bound: f64, (library, plain): (f64, f64), calls: usize) {
        let ratio = library / plain;
        let met = ratio <= bound;
        self.rows += 1;
        self.over += !met as usize;
        let met = if met { "met" } else { "OVER" };
        let [library, plain] = [library, plain].map(|t| time(t / calls as f64));
        println!("| {operation} | {shape} | {ratio:.2} | {bound:.1} | {met} | {library} | {plain} |");
    }
}

fn time(seconds: f64) -> String {
    if seconds < 1e-5 {
        format!("{:.0} ns", seconds * 1e9)
    } else {
        format!("{:.0} us", seconds * 1e6)
    }
}

/// The most that reading a sheet may take, beside the opponent.
fn read_bound(name: &str) -> f64 {
    let tight = ["flat", "nested", "deep <<", "long strings"];
    if tight.contains(&name) || name.starts_with("refused") {
        1.0
    } else {
        1.5
    }
}

#[inline(never)]
fn library_read(text: &[u8], out: &mut [u8]) -> u8 {
    edn::read_into(text, out).map_or_else(|e| e.number(), |_| 0)
}

#[inline(never)]
fn opponent_read(o: &mut Opponent, text: &[u8], out: &mut [u8]) -> u8 {
    o.read(text, out).map_or_else(|e| e.number, |_| 0)
}

/// The library's time and the opponent's for reading the texts of a shape.
fn read_times(o: &mut Opponent, Shape { sheets, .. }: &Shape) -> (f64, f64) {
    let room = sheets[0].room;
    let (mut out, mut out2) = (vec![0u8; room], vec![0u8; room]);
    for sheet in sheets {
        assert_eq!(library_read(&sheet.text, &mut out), sheet.number, "{}", sheet.name);
        assert_eq!(opponent_read(o, &sheet.text, &mut out2), sheet.number, "{}", sheet.name);
        assert!(out == out2, "{}: the bytes differ", sheet.name);
    }
    let library = |i: usize| {
        black_box(library_read(black_box(&sheets[i].text), black_box(&mut out)));
    };
    let plain = |i: usize| {
        black_box(opponent_read(o, black_box(&sheets[i].text), black_box(&mut out2)));
    };
    least([sheets.len(); 2], library, plain)
}

fn reading(table: &mut Table, o: &mut Opponent) {
    for shape in stored::shapes().into_iter().chain([stored::small()]) {
        if table.wants("read", shape.name) {
            let times = read_times(o, &shape);
            table.row("read", shape.name, read_bound(shape.name), times, shape.sheets.len());
        }
    }
}

/// The bytes of a stored text, a path to an item in the middle, and a buffer with these bytes in it, of which some are used.
#[derive(Clone)]
struct Stored {
    bytes: Vec<u8>,
    path: Vec<u16>,
    buffer: Vec<u8>,
    used: usize,
}

impl Stored {
    fn new(shape: &str, text: &[u8]) -> Stored {
        let bytes = edn::read(std::str::from_utf8(text).unwrap()).unwrap();
        let path = middle(&bytes, if shape == "nested" { vec![0, 0] } else { vec![0] });
        let mut buffer = vec![0; edn::MOST];
        buffer[..bytes.len()].copy_from_slice(&bytes);
        let used = bytes.len();
        Stored { bytes, path, buffer, used }
    }
}

/// The path with its last step moved on to the last item that starts in the first half.
fn middle(bytes: &[u8], mut path: Vec<u16>) -> Vec<u16> {
    let last = path.len() - 1;
    for step in (0..15).rev().map(|bit| 1 << bit) {
        path[last] += step;
        if !edn::locate(bytes, &path).is_ok_and(|part| part.start < bytes.len() / 2) {
            path[last] -= step;
        }
    }
    path
}

/// How long the texts are whose bytes are printed: byte strings get longer, and what is printed has to find room.
const PRINTED: usize = 40_000;
/// An item made longer in all sheets, and then shorter again in all of them, so that all that is behind it is moved twice.
const CORRECTIONS: [&[u8]; 2] = [b"[1, 1000000]", b"1"];

/// How often a sheet is worked on. Not twice in a row: the second time would be foretold.
fn turns(operation: &str) -> usize {
    if operation == "correct" {
        CORRECTIONS.len()
    } else {
        1
    }
}

#[inline(never)]
fn library_call(operation: &str, s: &mut Stored, turn: usize, out: &mut [u8]) -> usize {
    match operation {
        "check" => edn::check(&s.bytes).is_ok() as usize,
        "look up" => edn::locate(&s.bytes, &s.path).unwrap().end,
        "print" => edn::print_into(&s.bytes, out).unwrap(),
        _ => {
            s.used = edn::correct_in(&mut s.buffer, s.used, &s.path, CORRECTIONS[turn]).unwrap();
            s.used
        }
    }
}

#[inline(never)]
fn opponent_call(o: &mut Opponent, operation: &str, s: &mut Stored, turn: usize, out: &mut [u8]) -> usize {
    match operation {
        "check" => o.check(&s.bytes).is_ok() as usize,
        "look up" => o.look_up(&s.bytes, &s.path).ok().unwrap().1,
        "print" => o.print(&s.bytes, out).ok().unwrap(),
        _ => {
            s.used = o.correct(&mut s.buffer, s.used, &s.path, CORRECTIONS[turn]).ok().unwrap();
            s.used
        }
    }
}

fn byte_times(o: &mut Opponent, operation: &str, shape: &Shape) -> (f64, f64) {
    let (mut out, mut out2) = (vec![0u8; edn::MOST], vec![0u8; edn::MOST]);
    let mut ours: Vec<Stored> = shape.sheets.iter().map(|sheet| Stored::new(shape.name, &sheet.text)).collect();
    let mut theirs = ours.clone();
    let (sheets, turns) = (ours.len(), turns(operation));
    for i in 0..sheets * turns {
        let (a, b) = (&mut ours[i % sheets], &mut theirs[i % sheets]);
        let result = library_call(operation, a, i / sheets, &mut out);
        assert_eq!(result, opponent_call(o, operation, b, i / sheets, &mut out2), "{operation} {}", shape.name);
        assert!(out == out2 && a.buffer == b.buffer, "{operation} {}: the bytes differ", shape.name);
    }
    let library = |i: usize| {
        black_box(library_call(operation, black_box(&mut ours[i % sheets]), i / sheets, black_box(&mut out)));
    };
    let plain = |i: usize| {
        black_box(opponent_call(o, operation, black_box(&mut theirs[i % sheets]), i / sheets, black_box(&mut out2)));
    };
    least([sheets * turns; 2], library, plain)
}

fn working_on_bytes(table: &mut Table, o: &mut Opponent) {
    for operation in ["check", "look up", "correct", "print"] {
        let shapes = stored::shapes_near(if operation == "print" { PRINTED } else { stored::LONG });
        for (name, bound) in [("flat", 1.0), ("nested", 1.0), ("long strings", 1.5), ("deep <<", 1.5)] {
            if table.wants(operation, name) {
                let shape = shapes.iter().find(|shape| shape.name == name).unwrap();
                let times = byte_times(o, operation, shape);
                table.row(operation, name, bound, times, shape.sheets.len());
            }
        }
    }
}

/// The library's time for a byte of long texts over that of short ones.
fn growth(table: &Table) {
    println!("\n| growth | library's time for a byte, near 60,000 / near 1,000 |");
    println!("|--|--|");
    let shapes = |size| stored::shapes_near(size).into_iter().chain(stored::hostile(size));
    for (long, short) in shapes(stored::LONG).zip(shapes(stored::SHORT)) {
        if table.wants("growth", long.name) {
            let sizes = [&long, &short].map(|shape| shape.sheets.iter().map(|s| s.text.len()).sum::<usize>() as f64);
            let (mut out, mut out2) = (vec![0u8; edn::MOST], vec![0u8; edn::MOST]);
            let counts = [long.sheets.len(), short.sheets.len()];
            let times = least(counts, |i| read_again(&long.sheets[i], &mut out), |i| read_again(&short.sheets[i], &mut out2));
            println!("| {} | {:.2} |", long.name, times.0 / sizes[0] / (times.1 / sizes[1]));
        }
    }
}

fn read_again(sheet: &Sheet, out: &mut [u8]) {
    let number = black_box(library_read(black_box(&sheet.text), black_box(&mut out[..sheet.room])));
    assert_eq!(number, sheet.number, "{}", sheet.name);
}

fn main() -> ExitCode {
    if cfg!(debug_assertions) {
        eprintln!("a debug build says nothing: cargo run --release --example bench");
    }
    let mut table = Table { wanted: std::env::args().skip(1).collect(), rows: 0, over: 0 };
    let mut o = Opponent::new();
    println!("| operation | sheet | library / opponent | bound | | library | opponent |");
    println!("|--|--|--|--|--|--|--|");
    reading(&mut table, &mut o);
    working_on_bytes(&mut table, &mut o);
    growth(&table);
    println!("\n{} of {} rows are over their bound", table.over, table.rows);
    table.verdict()
}
