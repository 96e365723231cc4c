//! Numbers written in decimal.

/// The two digits of each number under a hundred.
static PAIRS: [[u8; 2]; 100] = {
    let mut table = [[0; 2]; 100];
    let mut n = 0;
    while n < 100 {
        table[n] = [b'0' + n as u8 / 10, b'0' + n as u8 % 10];
        n += 1;
    }
    table
};

/// Writes a number; where it ends. Two digits are taken from its end at a time.
#[inline(always)]
pub fn decimal(out: &mut [u8], to: usize, mut n: u64) -> usize {
    let count = 1 + n.checked_ilog10().unwrap_or(0) as usize;
    let digits = &mut out[to..to + count];
    let mut left = count;
    while n >= 100 {
        digits[left - 2..left].copy_from_slice(&PAIRS[n as usize % 100]);
        n /= 100;
        left -= 2;
    }
    if n >= 10 {
        digits[..2].copy_from_slice(&PAIRS[n as usize]);
    } else {
        digits[0] = b'0' + n as u8;
    }
    to + count
}
