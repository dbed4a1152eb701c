//! CMAC with AES-128 after SP 800-38B, section 6, over a whole message.

use crate::aes::{Aes128, Block, BLOCK};

/// The two subkeys (SP 800-38B, 6.1).
pub fn subkeys(cipher: &Aes128) -> (Block, Block) {
    let k1 = double(cipher.encrypt(&[0; BLOCK]));
    (k1, double(k1))
}

/// A shift to the left, and Rb = 0x87 where a one falls out.
fn double(block: Block) -> Block {
    let number = u128::from_be_bytes(block);
    let carry = if number >> 127 == 1 { 0x87 } else { 0 };
    (number << 1 ^ carry).to_be_bytes()
}

/// The tag (SP 800-38B, 6.2).
pub fn cmac(key: &Block, message: &[u8]) -> Block {
    let cipher = Aes128::new(key);
    let (k1, k2) = subkeys(&cipher);
    // The last block is full, or it is padded; the empty message has one padded block.
    let last_start = message.len().saturating_sub(1) / BLOCK * BLOCK;
    let (whole, rest) = message.split_at(last_start);
    let mut last = [0; BLOCK];
    last[..rest.len()].copy_from_slice(rest);
    let mask = if rest.len() == BLOCK {
        k1
    } else {
        last[rest.len()] = 0x80;
        k2
    };
    let mut chain = [0; BLOCK];
    for block in whole.chunks_exact(BLOCK) {
        chain = cipher.encrypt(&xor(&chain, block));
    }
    cipher.encrypt(&xor(&xor(&chain, &last), &mask))
}

fn xor(a: &Block, b: &[u8]) -> Block {
    std::array::from_fn(|i| a[i] ^ b[i])
}

#[cfg(test)]
mod tests {
    use super::*;
    use crate::vectors::{block, rows};

    #[test]
    fn published_subkeys() {
        for row in rows("cmac-aes128-subkeys.tsv") {
            let cipher = Aes128::new(&block(&row.bytes(0).unwrap()).unwrap());
            assert_eq!(Ok(cipher.encrypt(&[0; BLOCK]).to_vec()), row.bytes(1));
            let (k1, k2) = subkeys(&cipher);
            assert_eq!(Ok(k1.to_vec()), row.bytes(2));
            assert_eq!(Ok(k2.to_vec()), row.bytes(3));
        }
    }
}
