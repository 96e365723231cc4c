//! One call made of the library and of the plain model, and what they answer compared: number, values and every byte of what is lent.
//! Where they differ, the input is made smaller as long as they differ, and printed as a test to keep.
#![allow(dead_code)]

use crate::model;
use edn::sys;
use std::fmt::Write;
use std::time::Instant;

#[derive(Clone, Debug)]
pub enum Case {
    Read { text: Vec<u8>, room: usize, values: usize },
    Print { bytes: Vec<u8>, room: usize, values: usize },
    LookUp { bytes: Vec<u8>, path: Vec<u16>, values: usize },
    Correct { buffer: Vec<u8>, used: usize, path: Vec<u16>, text: Vec<u8>, values: usize },
    Check { bytes: Vec<u8>, values: usize },
}

fn filled(n: usize) -> Vec<u8> {
    (0..n).map(|i| (i * 37 + 11) as u8).collect()
}

const MARK: u64 = 0xabcd_ef01_2345_6789;

/// What a call leaves: the number, the values, the buffer.
#[derive(PartialEq, Eq)]
struct Left {
    number: u8,
    value: Vec<u64>,
    buffer: Vec<u8>,
}

fn library(case: &Case) -> Left {
    let (Case::Read { values, .. }
    | Case::Print { values, .. }
    | Case::LookUp { values, .. }
    | Case::Correct { values, .. }
    | Case::Check { values, .. }) = case;
    let mut value = vec![MARK; *values];
    let (v, n) = (value.as_mut_ptr(), value.len());
    let mut b = Vec::new();
    // Each pointer comes from a live slice with its length, and no two overlap.
    let number = unsafe {
        match case {
            Case::Read { text, room, .. } => {
                b = filled(*room);
                sys::edn_read(text.as_ptr(), text.len(), b.as_mut_ptr(), b.len(), v, n)
            }
            Case::Print { bytes, room, .. } => {
                b = filled(*room);
                sys::edn_print(bytes.as_ptr(), bytes.len(), b.as_mut_ptr(), b.len(), v, n)
            }
            Case::LookUp { bytes, path, .. } => sys::edn_look_up(bytes.as_ptr(), bytes.len(), path.as_ptr(), path.len(), v, n),
            Case::Correct { buffer, used, path, text, .. } => {
                b = buffer.clone();
                sys::edn_correct(b.as_mut_ptr(), b.len(), *used, path.as_ptr(), path.len(), text.as_ptr(), text.len(), v, n)
            }
            Case::Check { bytes, .. } => sys::edn_check(bytes.as_ptr(), bytes.len(), v, n),
        }
    };
    Left { number, value, buffer: b }
}

fn plain(case: &Case) -> Left {
    let (Case::Read { values, .. }
    | Case::Print { values, .. }
    | Case::LookUp { values, .. }
    | Case::Correct { values, .. }
    | Case::Check { values, .. }) = case;
    let mut value = vec![MARK; *values];
    let mut b = Vec::new();
    let answer: model::Answer<Vec<usize>> = match case {
        Case::Read { text, room, .. } => {
            b = filled(*room);
            model::read(text, &mut b).map(|n| vec![n])
        }
        Case::Print { bytes, room, .. } => {
            b = filled(*room);
            model::print(bytes, &mut b).map(|n| vec![n])
        }
        Case::LookUp { bytes, path, .. } => model::look_up(bytes, path).map(|(s, e)| vec![s, e]),
        Case::Correct { buffer, used, path, text, .. } => {
            b = buffer.clone();
            model::correct(&mut b, *used, path, text).map(|n| vec![n])
        }
        Case::Check { bytes, .. } => model::check(bytes).map(|()| vec![0]),
    };
    let (number, told) = match answer {
        Ok(told) => (0, told),
        Err(e) => (e.number, vec![e.place]),
    };
    for (v, t) in value.iter_mut().zip(told) {
        *v = t as u64;
    }
    Left { number, value, buffer: b }
}

/// How the two answers differ.
pub fn differs(case: &Case) -> Option<String> {
    let (l, m) = (library(case), plain(case));
    if l == m {
        return None;
    }
    let mut s = format!("library: {} {:?}, model: {} {:?}", l.number, l.value, m.number, m.value);
    if let Some(i) = (0..l.buffer.len().max(m.buffer.len())).find(|&i| l.buffer.get(i) != m.buffer.get(i)) {
        write!(s, "; the buffers differ from {i} on: {:02x?}, {:02x?}", l.buffer.get(i), m.buffer.get(i)).unwrap();
    }
    Some(s)
}

/// Fails with a test to keep where library and model differ; else the number that both answer.
pub fn same(case: Case) -> u8 {
    let (l, m) = (library(&case), plain(&case));
    if l != m {
        let small = shrink(case);
        panic!("{}\n{}", differs(&small).unwrap(), kept(&small));
    }
    l.number
}

fn shrink(mut case: Case) -> Case {
    let started = Instant::now();
    loop {
        let mut smaller = None;
        'cut: for part in 0..2 {
            let n = bytes_of(&mut case.clone(), part).map_or(0, |b| b.len());
            let mut size = n;
            while size > 0 {
                let mut at = 0;
                while at + size <= n && started.elapsed().as_secs() < 10 {
                    let mut c = case.clone();
                    bytes_of(&mut c, part).unwrap().drain(at..at + size);
                    if let Case::Correct { buffer, used, .. } = &mut c {
                        *used = (*used).min(buffer.len());
                    }
                    if differs(&c).is_some() {
                        smaller = Some(c);
                        break 'cut;
                    }
                    at += size;
                }
                size /= 2;
            }
        }
        match smaller {
            Some(c) if started.elapsed().as_secs() < 10 => case = c,
            _ => return case,
        }
    }
}

fn bytes_of(case: &mut Case, part: usize) -> Option<&mut Vec<u8>> {
    match (case, part) {
        (Case::Read { text, .. }, 0) => Some(text),
        (Case::Print { bytes, .. } | Case::LookUp { bytes, .. } | Case::Check { bytes, .. }, 0) => Some(bytes),
        (Case::Correct { text, .. }, 0) => Some(text),
        (Case::Correct { buffer, .. }, 1) => Some(buffer),
        _ => None,
    }
}

/// Bytes as a Rust literal that reads well where they are ASCII.
pub fn literal(b: &[u8]) -> String {
    let s: String = b.iter().flat_map(|&b| std::ascii::escape_default(b)).map(char::from).collect();
    format!("b\"{s}\"")
}

/// The case as a test for tests/kept.rs.
pub fn kept(case: &Case) -> String {
    let call = match case {
        Case::Read { text, room, values } => format!("Case::Read {{ text: {}.to_vec(), room: {room}, values: {values} }}", literal(text)),
        Case::Print { bytes, room, values } => {
            format!("Case::Print {{ bytes: {}.to_vec(), room: {room}, values: {values} }}", literal(bytes))
        }
        Case::LookUp { bytes, path, values } => {
            format!("Case::LookUp {{ bytes: {}.to_vec(), path: vec!{path:?}, values: {values} }}", literal(bytes))
        }
        Case::Correct { buffer, used, path, text, values } => format!(
            "Case::Correct {{ buffer: {}.to_vec(), used: {used}, path: vec!{path:?}, text: {}.to_vec(), values: {values} }}",
            literal(buffer),
            literal(text)
        ),
        Case::Check { bytes, values } => format!("Case::Check {{ bytes: {}.to_vec(), values: {values} }}", literal(bytes)),
    };
    format!("#[test]\nfn name_it() {{\n    same({call});\n}}")
}
