//! AES-128 encryption with the usual four lookup tables. Every table is worked out
//! by the compiler from the field arithmetic, so no table is typed in.

/// Product in GF(2^8) modulo x^8 + x^4 + x^3 + x + 1.
const fn gf_mul(mut a: u8, mut b: u8) -> u8 {
    let mut product = 0;
    while b != 0 {
        if b & 1 != 0 {
            product ^= a;
        }
        a = (a << 1) ^ (if a & 0x80 != 0 { 0x1b } else { 0 });
        b >>= 1;
    }
    product
}

/// Inverse in GF(2^8), with 0 going to 0: x^254 by square and multiply.
const fn gf_inverse(x: u8) -> u8 {
    let mut result = 1;
    let mut power = x;
    let mut exponent = 254;
    while exponent > 0 {
        if exponent & 1 == 1 {
            result = gf_mul(result, power);
        }
        power = gf_mul(power, power);
        exponent >>= 1;
    }
    result
}

const fn s_box() -> [u8; 256] {
    let mut table = [0; 256];
    let mut x = 0;
    while x < 256 {
        let i = gf_inverse(x as u8);
        table[x] = i ^ i.rotate_left(1) ^ i.rotate_left(2) ^ i.rotate_left(3) ^ i.rotate_left(4) ^ 0x63;
        x += 1;
    }
    table
}

/// SubBytes and MixColumns of one byte in row 0, as a column; other rows are rotations.
const fn round_table(row: u32) -> [u32; 256] {
    let mut table = [0; 256];
    let mut x = 0;
    while x < 256 {
        let s = SBOX[x];
        let column = u32::from_be_bytes([gf_mul(s, 2), s, s, gf_mul(s, 3)]);
        table[x] = column.rotate_right(8 * row);
        x += 1;
    }
    table
}

static SBOX: [u8; 256] = s_box();
static T0: [u32; 256] = round_table(0);
static T1: [u32; 256] = round_table(1);
static T2: [u32; 256] = round_table(2);
static T3: [u32; 256] = round_table(3);

const ROUNDS: usize = 10;

fn sub_word(w: u32) -> u32 {
    u32::from_be_bytes(w.to_be_bytes().map(|b| SBOX[b as usize]))
}

/// The expanded key: eleven round keys of four words.
#[derive(Clone)]
pub struct Schedule {
    words: [u32; 4 * (ROUNDS + 1)],
}

impl Schedule {
    pub fn expand(key: &[u8; 16]) -> Schedule {
        let mut words = [0; 4 * (ROUNDS + 1)];
        for (word, bytes) in words.iter_mut().zip(key.chunks_exact(4)) {
            *word = u32::from_be_bytes([bytes[0], bytes[1], bytes[2], bytes[3]]);
        }
        let mut round_constant = 1u8;
        for round in 1..=ROUNDS {
            let at = 4 * round;
            let turned = sub_word(words[at - 1].rotate_left(8));
            words[at] = words[at - 4] ^ turned ^ (u32::from(round_constant) << 24);
            words[at + 1] = words[at - 3] ^ words[at];
            words[at + 2] = words[at - 2] ^ words[at + 1];
            words[at + 3] = words[at - 1] ^ words[at + 2];
            round_constant = gf_mul(round_constant, 2);
        }
        Schedule { words }
    }

    pub fn last_round_key(&self) -> [u8; 16] {
        let w = &self.words[4 * ROUNDS..];
        join([w[0], w[1], w[2], w[3]])
    }

    pub fn encrypt(&self, block: &[u8; 16]) -> [u8; 16] {
        let word = |i: usize| u32::from_be_bytes([block[i], block[i + 1], block[i + 2], block[i + 3]]);
        let key = &self.words;
        let mut s = [word(0) ^ key[0], word(4) ^ key[1], word(8) ^ key[2], word(12) ^ key[3]];
        for round in 1..ROUNDS {
            let k = &key[4 * round..4 * round + 4];
            // ShiftRows: row r of column c comes from column c + r.
            s = [
                mixed(s[0], s[1], s[2], s[3]) ^ k[0],
                mixed(s[1], s[2], s[3], s[0]) ^ k[1],
                mixed(s[2], s[3], s[0], s[1]) ^ k[2],
                mixed(s[3], s[0], s[1], s[2]) ^ k[3],
            ];
        }
        let k = &key[4 * ROUNDS..];
        join([
            unmixed(s[0], s[1], s[2], s[3]) ^ k[0],
            unmixed(s[1], s[2], s[3], s[0]) ^ k[1],
            unmixed(s[2], s[3], s[0], s[1]) ^ k[2],
            unmixed(s[3], s[0], s[1], s[2]) ^ k[3],
        ])
    }
}

#[inline]
fn mixed(a: u32, b: u32, c: u32, d: u32) -> u32 {
    T0[(a >> 24) as usize]
        ^ T1[(b >> 16 & 0xff) as usize]
        ^ T2[(c >> 8 & 0xff) as usize]
        ^ T3[(d & 0xff) as usize]
}

/// The last round has no MixColumns.
#[inline]
fn unmixed(a: u32, b: u32, c: u32, d: u32) -> u32 {
    u32::from_be_bytes([
        SBOX[(a >> 24) as usize],
        SBOX[(b >> 16 & 0xff) as usize],
        SBOX[(c >> 8 & 0xff) as usize],
        SBOX[(d & 0xff) as usize],
    ])
}

fn join(words: [u32; 4]) -> [u8; 16] {
    let mut bytes = [0; 16];
    for (to, word) in bytes.chunks_exact_mut(4).zip(words) {
        to.copy_from_slice(&word.to_be_bytes());
    }
    bytes
}

#[cfg(test)]
mod tests {
    use super::*;

    fn block(hex: &str) -> [u8; 16] {
        u128::from_str_radix(hex, 16).unwrap().to_be_bytes()
    }

    #[test]
    fn s_box_corners() {
        assert_eq!(SBOX[0x00], 0x63);
        assert_eq!(SBOX[0x01], 0x7c);
        assert_eq!(SBOX[0x53], 0xed);
        assert_eq!(SBOX[0xff], 0x16);
        let mut seen = [false; 256];
        SBOX.iter().for_each(|&s| seen[s as usize] = true);
        assert!(seen.iter().all(|&s| s), "a permutation");
    }

    #[test]
    fn fips_197_a1_key_expansion() {
        let schedule = Schedule::expand(&block("2b7e151628aed2a6abf7158809cf4f3c"));
        assert_eq!(schedule.words[4], 0xa0fafe17);
        assert_eq!(schedule.last_round_key(), block("d014f9a8c9ee2589e13f0cc8b6630ca6"));
    }

    #[test]
    fn fips_197_b_cipher_example() {
        let schedule = Schedule::expand(&block("2b7e151628aed2a6abf7158809cf4f3c"));
        assert_eq!(
            schedule.encrypt(&block("3243f6a8885a308d313198a2e0370734")),
            block("3925841d02dc09fbdc118597196a0b32")
        );
    }

    #[test]
    fn fips_197_c1_cipher_example() {
        let schedule = Schedule::expand(&block("000102030405060708090a0b0c0d0e0f"));
        assert_eq!(
            schedule.encrypt(&block("00112233445566778899aabbccddeeff")),
            block("69c4e0d86a7b0430d8cdb78070b4c55a")
        );
    }
}
