//! The library's functions as they are: `include/edn.h`, which says what each promises. The functions of the crate's root are over them.
//!
//! Each pointer comes with the number of elements behind it, and with 0 elements it may be null. What a function writes to must not overlap
//! anything else that is lent to the same call: unlike the functions of the header, these do not look.
//!
//! They answer 0, or the number of a [`Kind`](crate::Kind) of refusal.

extern "C" {
    /// READ: a text to the bytes of its items, at the front of `out`; value\[0\] is their number, or the place of the refusal.
    pub fn edn_read(text: *const u8, text_len: usize, out: *mut u8, out_len: usize, value: *mut u64, value_len: usize) -> u8;
    /// PRINT: bytes to the text of their items, at the front of `out`; value\[0\] is its length, or the place of the refusal.
    pub fn edn_print(bytes: *const u8, bytes_len: usize, out: *mut u8, out_len: usize, value: *mut u64, value_len: usize) -> u8;
    /// LOOK UP: where the item at a path stands, from value\[0\] up to value\[1\]; or the place of the refusal in value\[0\].
    pub fn edn_look_up(bytes: *const u8, bytes_len: usize, path: *const u16, path_len: usize, value: *mut u64, value_len: usize) -> u8;
    /// CORRECT: the item at a path, in the first `used` bytes of `buffer`, replaced by the item that a text spells; value\[0\] is how many are
    /// used then, or the place of the refusal.
    pub fn edn_correct(
        buffer: *mut u8,
        buffer_len: usize,
        used: usize,
        path: *const u16,
        path_len: usize,
        text: *const u8,
        text_len: usize,
        value: *mut u64,
        value_len: usize,
    ) -> u8;
    /// CHECK: whether bytes are a sheet; value\[0\] is 0, or the place of the refusal.
    pub fn edn_check(bytes: *const u8, bytes_len: usize, value: *mut u64, value_len: usize) -> u8;
}
