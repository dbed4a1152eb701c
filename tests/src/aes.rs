//! AES-128 encryption after FIPS 197, section 5.

pub const BLOCK: usize = 16;
const ROUNDS: usize = 10;

pub type Block = [u8; BLOCK];

/// Multiplication by x in the field (FIPS 197, 4.2.1).
const fn xtime(a: u8) -> u8 {
    (a << 1) ^ (if a & 0x80 != 0 { 0x1b } else { 0 })
}

/// The inverse: 3 generates the field, so its powers k and 255 - k are inverse
/// to each other; 0 goes to 0.
const fn inverses() -> [u8; 256] {
    let mut powers = [1; 256];
    let mut k = 1;
    while k < 256 {
        powers[k] = powers[k - 1] ^ xtime(powers[k - 1]);
        k += 1;
    }
    let mut table = [0; 256];
    k = 0;
    while k < 255 {
        table[powers[k] as usize] = powers[255 - k];
        k += 1;
    }
    table
}

/// The affine step (FIPS 197, 5.1.1, equation 5.1).
const fn affine(b: u8) -> u8 {
    b ^ b.rotate_left(1) ^ b.rotate_left(2) ^ b.rotate_left(3) ^ b.rotate_left(4) ^ 0x63
}

static SBOX: [u8; 256] = {
    let mut table = inverses();
    let mut a = 0;
    while a < 256 {
        table[a] = affine(table[a]);
        a += 1;
    }
    table
};

pub struct Aes128 {
    round_keys: [Block; ROUNDS + 1],
}

impl Aes128 {
    /// KeyExpansion (FIPS 197, 5.2) with four words a round key.
    pub fn new(key: &Block) -> Self {
        let mut round_keys = [*key; ROUNDS + 1];
        let mut round_constant = 1;
        for round in 1..=ROUNDS {
            let before = round_keys[round - 1];
            let mut word = [before[13], before[14], before[15], before[12]].map(substitute);
            word[0] ^= round_constant;
            round_constant = xtime(round_constant);
            for column in 0..4 {
                for row in 0..4 {
                    word[row] ^= before[4 * column + row];
                    round_keys[round][4 * column + row] = word[row];
                }
            }
        }
        Aes128 { round_keys }
    }

    /// The round keys in order, for the published key expansion.
    pub fn round_keys(&self) -> &[Block] {
        &self.round_keys
    }

    /// Cipher (FIPS 197, 5.1). The state is kept column by column, as the block.
    pub fn encrypt(&self, block: &Block) -> Block {
        let mut state = add(*block, &self.round_keys[0]);
        for key in &self.round_keys[1..ROUNDS] {
            state = add(mix_columns(shift_rows(state.map(substitute))), key);
        }
        add(shift_rows(state.map(substitute)), &self.round_keys[ROUNDS])
    }
}

fn substitute(byte: u8) -> u8 {
    SBOX[usize::from(byte)]
}

fn add(state: Block, key: &Block) -> Block {
    std::array::from_fn(|i| state[i] ^ key[i])
}

fn shift_rows(state: Block) -> Block {
    std::array::from_fn(|i| state[(i + 4 * (i % 4)) % BLOCK])
}

fn mix_columns(state: Block) -> Block {
    std::array::from_fn(|i| {
        let (column, row) = (i / 4 * 4, i % 4);
        let at = |step: usize| state[column + (row + step) % 4];
        xtime(at(0)) ^ xtime(at(1)) ^ at(1) ^ at(2) ^ at(3)
    })
}

#[cfg(test)]
mod tests {
    use super::*;
    use crate::vectors::rows;

    #[test]
    fn substitution_numbers_of_fips_197_figure_7() {
        assert_eq!(SBOX[0x00], 0x63);
        assert_eq!(SBOX[0x53], 0xed);
        assert_eq!(SBOX[0xff], 0x16);
        let mut seen = SBOX;
        seen.sort_unstable();
        assert!(seen.iter().enumerate().all(|(i, b)| i == usize::from(*b)));
    }

    #[test]
    fn key_expansion_of_fips_197_appendix_a() {
        let words: Vec<[u8; 4]> = rows("aes128-key-expansion.tsv")
            .iter()
            .map(|row| row.bytes(1).unwrap().try_into().unwrap())
            .collect();
        let key: Block = words[..4].concat().try_into().unwrap();
        assert_eq!(Aes128::new(&key).round_keys().concat(), words.concat());
    }
}
