//! Null with no elements behind it, lent to the proved functions themselves, without the header: they load nothing through it.
use edn::sys;
use std::ptr::null_mut;

/// Memory to lend, the parts of it that are empty, as a set of bits, and whether those are null.
#[derive(Clone, Debug, PartialEq)]
struct Memory {
    input: [u8; 1],
    path: [u16; 1],
    output: [u8; 1],
    value: [u64; 2],
    empty: u32,
    as_null: bool,
}

const INPUT: u32 = 0;
const PATH: u32 = 1;
const OUTPUT: u32 = 2;
const VALUE: u32 = 3;
const PARTS: u32 = 4;

impl Memory {
    fn new(empty: u32, as_null: bool) -> Memory {
        // each byte is an item, and so it is as a text
        Memory { input: *b"1", path: [0], output: *b"1", value: [9, 9], empty, as_null }
    }

    fn is_empty(&self, part: u32) -> bool {
        self.empty >> part & 1 == 1
    }

    fn count(&self, part: u32, whole: usize) -> usize {
        if self.is_empty(part) {
            0
        } else {
            whole
        }
    }

    /// The pointer to a part, or null in its place.
    fn pointer<T>(&self, part: u32, pointer: *mut T) -> *mut T {
        if self.as_null && self.is_empty(part) {
            null_mut()
        } else {
            pointer
        }
    }

    fn input(&mut self) -> (*const u8, usize) {
        let pointer = self.input.as_mut_ptr();
        (self.pointer(INPUT, pointer), self.count(INPUT, self.input.len()))
    }

    fn path(&mut self) -> (*const u16, usize) {
        let pointer = self.path.as_mut_ptr();
        (self.pointer(PATH, pointer), self.count(PATH, self.path.len()))
    }

    fn output(&mut self) -> (*mut u8, usize) {
        let pointer = self.output.as_mut_ptr();
        (self.pointer(OUTPUT, pointer), self.count(OUTPUT, self.output.len()))
    }

    fn value(&mut self) -> (*mut u64, usize) {
        let pointer = self.value.as_mut_ptr();
        (self.pointer(VALUE, pointer), self.count(VALUE, self.value.len()))
    }
}

/// Runs a call with each set of parts empty, at an address and at null: what it answers and leaves is the same.
#[track_caller]
fn null_is_as_good(call: impl Fn(&mut Memory) -> u8) {
    for empty in 0..1 << PARTS {
        let (mut with_address, mut with_null) = (Memory::new(empty, false), Memory::new(empty, true));
        assert_eq!(call(&mut with_address), call(&mut with_null), "empty: {empty:04b}");
        with_null.as_null = false;
        assert_eq!(with_address, with_null);
    }
}

#[test]
fn read_and_print() {
    for convert in [sys::edn_read, sys::edn_print] {
        null_is_as_good(|m| {
            let ((i, i_len), (o, o_len), (v, v_len)) = (m.input(), m.output(), m.value());
            // SAFETY: each pointer leads to so many elements of a part of its own.
            unsafe { convert(i, i_len, o, o_len, v, v_len) }
        });
    }
}

#[test]
fn look_up() {
    null_is_as_good(|m| {
        let ((i, i_len), (p, p_len), (v, v_len)) = (m.input(), m.path(), m.value());
        // SAFETY: as in `read_and_print`.
        unsafe { sys::edn_look_up(i, i_len, p, p_len, v, v_len) }
    });
}

#[test]
fn correct() {
    null_is_as_good(|m| {
        let ((o, o_len), (p, p_len), (i, i_len), (v, v_len)) = (m.output(), m.path(), m.input(), m.value());
        // SAFETY: as in `read_and_print`.
        unsafe { sys::edn_correct(o, o_len, o_len, p, p_len, i, i_len, v, v_len) }
    });
}

#[test]
fn check() {
    null_is_as_good(|m| {
        let ((i, i_len), (v, v_len)) = (m.input(), m.value());
        // SAFETY: as in `read_and_print`.
        unsafe { sys::edn_check(i, i_len, v, v_len) }
    });
}
