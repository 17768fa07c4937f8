//! MD5 by RFC 1321.
#![forbid(unsafe_code)]

const BLOCK: usize = 64;

/// What the registers A, B, C and D start with.
const START: [u32; 4] = [0x6745_2301, 0xEFCD_AB89, 0x98BA_DCFE, 0x1032_5476];

/// The additive constants, those of one round after those of another.
const ADDED: [u32; 64] = added();

/// The bits behind the point of the numbers that `ADDED` is worked out with: enough that
/// what 64 steps lose stays far below the 32 bits that are kept.
const BEHIND_POINT: u32 = 60;

/// The message's sum, its bytes in the order in which the RFC prints them.
pub fn md5(message: &[u8]) -> [u8; 16] {
    let added = table();
    let whole = message.chunks_exact(BLOCK);
    let (ending, length) = ending(whole.remainder(), message.len());
    let mut registers = START;
    for block in whole {
        registers = Block::new(block, &added).taken_in(registers);
    }
    for block in ending[..length].chunks_exact(BLOCK) {
        registers = Block::new(block, &added).taken_in(registers);
    }
    let mut sum = [0; 16];
    for (bytes, register) in sum.chunks_exact_mut(4).zip(registers) {
        bytes.copy_from_slice(&register.to_le_bytes());
    }
    sum
}

/// The additive constants, behind a call: where the compiler sees them, it adds each as the
/// last summand of its step, and so the next step waits for one sum more.
#[inline(never)]
fn table() -> [u32; 64] {
    ADDED
}

/// What is hashed after the message's whole blocks, and its length: the bytes that are left,
/// a bit 1, zeros, and the count of the message's bits modulo 2^64 in the last eight bytes.
fn ending(left: &[u8], message: usize) -> ([u8; 2 * BLOCK], usize) {
    let mut ending = [0; 2 * BLOCK];
    ending[..left.len()].copy_from_slice(left);
    ending[left.len()] = 0x80;
    let fits_in_one = left.len() + 1 + 8 <= BLOCK;
    let length = if fits_in_one { BLOCK } else { 2 * BLOCK };
    let bits = (message as u64).wrapping_mul(8);
    ending[length - 8..length].copy_from_slice(&bits.to_le_bytes());
    (ending, length)
}

/// A block's words, and the constants that its steps add.
struct Block<'a> {
    words: [u32; 16],
    added: &'a [u32; 64],
}

impl<'a> Block<'a> {
    #[inline(always)]
    fn new(block: &[u8], added: &'a [u32; 64]) -> Block<'a> {
        let mut words = [0; 16];
        for (word, bytes) in words.iter_mut().zip(block.chunks_exact(4)) {
            *word = u32::from_le_bytes([bytes[0], bytes[1], bytes[2], bytes[3]]);
        }
        Block { words, added }
    }

    /// The registers after this block.
    #[inline(always)]
    fn taken_in(&self, before: [u32; 4]) -> [u32; 4] {
        let f = |x: u32, y: u32, z: u32| (x & y) | (!x & z);
        let g = |x: u32, y: u32, z: u32| (x & z) | (y & !z);
        let h = |x: u32, y: u32, z: u32| x ^ y ^ z;
        let i = |x: u32, y: u32, z: u32| y ^ (x | !z);
        let mut after = before;
        after = self.round(0, after, [7, 12, 17, 22], |step| step, f);
        after = self.round(1, after, [5, 9, 14, 20], |step| 5 * step + 1, g);
        after = self.round(2, after, [4, 11, 16, 23], |step| 3 * step + 5, h);
        after = self.round(3, after, [6, 10, 15, 21], |step| 7 * step, i);
        for (register, old) in after.iter_mut().zip(before) {
            *register = register.wrapping_add(old);
        }
        after
    }

    /// The registers after one round of sixteen steps. Every four steps rotate alike; a step
    /// takes the word of this number modulo 16; `mixed` is the round's function.
    #[inline(always)]
    fn round(
        &self,
        number: usize,
        before: [u32; 4],
        rotations: [u32; 4],
        word: impl Fn(usize) -> usize,
        mixed: impl Fn(u32, u32, u32) -> u32,
    ) -> [u32; 4] {
        let [mut a, mut b, mut c, mut d] = before;
        for four in 0..4 {
            let step = |place: usize, a: u32, b: u32, c: u32, d: u32| {
                let step = 4 * four + place;
                a.wrapping_add(self.words[word(step) % 16])
                    .wrapping_add(self.added[16 * number + step])
                    .wrapping_add(mixed(b, c, d))
                    .rotate_left(rotations[place])
                    .wrapping_add(b)
            };
            a = step(0, a, b, c, d);
            d = step(1, d, a, b, c);
            c = step(2, c, d, a, b);
            b = step(3, b, c, d, a);
        }
        [a, b, c, d]
    }
}

/// The RFC's rule: the integer part of 4294967296 times abs(sin(i)), i from 1 to 64 in radians.
const fn added() -> [u32; 64] {
    let (sin_1, cos_1) = sin_and_cos_of_1();
    let (mut sin, mut cos) = (sin_1, cos_1);
    let mut added = [0; 64];
    let mut place = 0;
    while place < 64 {
        added[place] = (sin.unsigned_abs() >> (BEHIND_POINT - 32)) as u32;
        // From i to i + 1, by the sine and cosine of a sum.
        let next = product(sin, cos_1) + product(cos, sin_1);
        cos = product(cos, cos_1) - product(sin, sin_1);
        sin = next;
        place += 1;
    }
    added
}

/// By their series, whose terms are 1/n! with signs.
const fn sin_and_cos_of_1() -> (i128, i128) {
    let (mut sin, mut cos) = (0, 0);
    let mut term = 1 << BEHIND_POINT;
    let mut n = 0;
    while term != 0 {
        match n % 4 {
            0 => cos += term,
            1 => sin += term,
            2 => cos -= term,
            _ => sin -= term,
        }
        n += 1;
        term /= n;
    }
    (sin, cos)
}

const fn product(one: i128, other: i128) -> i128 {
    (one * other) >> BEHIND_POINT
}
