//! The texts that speed is measured on: data sheets of each shape, near any size, and always the same ones.
#![allow(dead_code)]

mod chance;
mod hostile;
mod literal;
mod shape;

pub use hostile::hostile;

use shape::Page;

/// How long the stored texts are, about.
pub const LONG: usize = 60_000;
/// How long those are that growth is taken from.
pub const SHORT: usize = 1_000;
/// How long a small sheet is.
pub const SMALL: usize = 200;

/// A text with the room that it is to be read into, and the number of the answer: 0 where it is accepted.
pub struct Sheet {
    pub name: &'static str,
    pub text: Vec<u8>,
    pub room: usize,
    pub number: u8,
}

const ROOM: usize = 65_535;

impl Sheet {
    fn new(name: &'static str, number: u8, text: String) -> Self {
        Sheet { name, text: text.into_bytes(), room: ROOM, number }
    }
}

/// How many bytes of each shape are stored, in several texts. A processor that meets the same text over and over foretells its branches.
const STORED: usize = 40 * LONG;

/// A shape: texts that differ in what was drawn, and in nothing else.
pub struct Shape {
    pub name: &'static str,
    pub sheets: Vec<Sheet>,
}

/// The stored set, near 60,000 bytes each.
pub fn shapes() -> Vec<Shape> {
    shapes_near(LONG)
}

/// The same shapes near any size.
pub fn shapes_near(size: usize) -> Vec<Shape> {
    let mut shapes: Vec<Shape> = Vec::new();
    for variant in 0..STORED / size {
        let sheets = accepted(size, variant).into_iter().chain(refused(size, variant));
        for (i, sheet) in sheets.enumerate() {
            match shapes.get_mut(i) {
                Some(shape) => shape.sheets.push(sheet),
                None => shapes.push(Shape { name: sheet.name, sheets: vec![sheet] }),
            }
        }
    }
    shapes
}

/// Flat sheets of 200 bytes.
pub fn small() -> Shape {
    let sheet = |variant| Sheet::new("flat, 200 bytes", 0, Page::of(SMALL, variant).filled(Page::flat, "", ""));
    Shape { name: "flat, 200 bytes", sheets: (0..STORED / SMALL).map(sheet).collect() }
}

fn accepted(size: usize, variant: usize) -> Vec<Sheet> {
    let page = || Page::of(size, variant);
    let sixteen = |inside: &str| format!("{}{inside}{}", "<<".repeat(16), ">>".repeat(16));
    let texts = [
        ("flat", page().filled(Page::flat, "", "")),
        ("nested", page().filled(Page::record, "[", "]")),
        ("deep <<", page().filled(Page::flat, &"<<".repeat(16), &">>".repeat(16))),
        ("long strings", page().filled(Page::long_string, "", "")),
        ("integers", page().filled(Page::integer, "", "")),
        ("hex with gaps", page().filled(Page::hex_with_gaps, "", "")),
        ("base64", page().filled(Page::base64, "", "")),
        ("escapes", page().filled(Page::escapes, "", "")),
        ("words", page().filled(Page::word, "", "")),
        ("comments", page().filled(Page::commented, "", "")),
        ("string in 16 <<", sixteen(&page().sentence(size - 66))),
        ("tiny <<", page().filled(Page::tiny, "", "")),
    ];
    texts.map(|(name, text)| Sheet::new(name, 0, text)).into()
}

/// Texts that are refused at their end, so that all of them is read before.
fn refused(size: usize, variant: usize) -> Vec<Sheet> {
    let flat = |open: &str, close: &str| Page::of(size, variant).filled(Page::flat, open, close);
    let unfinished = Sheet::new("refused 3", 3, flat("", ", \"unended"));
    let dots = Sheet::new("refused 5", 5, flat("", ", ..."));
    // an array of over 23 items, and an indicator that is unknown where the form wants an item
    let array = Sheet::new("refused 9, array", 9, flat("[_i ", "]"));
    let embedded = Sheet::new("refused 9, >>", 9, flat("<<", ",>>_x"));
    let form = Sheet::new("refused 11", 11, flat("", " 1"));
    let typed = Sheet::new("refused 13", 13, flat("", ", 65(h'010203')"));
    // in bytes no flat sheet is as short as a quarter of its text
    let room = Sheet { room: size / 4, ..Sheet::new("refused 14", 14, flat("", "")) };
    vec![unfinished, dots, array, embedded, form, typed, room]
}
