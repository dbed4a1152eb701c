//! Counter mode after SP 800-38A, 6.5, with the counter blocks of 01: the
//! 8-byte IV, then a 64-bit big-endian count from 0.

use crate::aes::{Aes128, Block, BLOCK};

pub type Iv = [u8; 8];

/// `data` with the key stream added. One stream serves the whole of it.
pub fn ctr(key: &Block, iv: &Iv, data: &[u8]) -> Vec<u8> {
    let cipher = Aes128::new(key);
    data.iter()
        .zip(key_stream(&cipher, *iv))
        .map(|(byte, mask)| byte ^ mask)
        .collect()
}

fn key_stream(cipher: &Aes128, iv: Iv) -> impl Iterator<Item = u8> + '_ {
    (0..=u64::MAX).flat_map(move |count| {
        let mut counter = [0; BLOCK];
        counter[..8].copy_from_slice(&iv);
        counter[8..].copy_from_slice(&count.to_be_bytes());
        cipher.encrypt(&counter)
    })
}

#[cfg(test)]
mod tests {
    use super::*;

    #[test]
    fn counter_blocks_are_iv_then_count() {
        let (key, iv) = ([7; BLOCK], [1, 2, 3, 4, 5, 6, 7, 8]);
        let cipher = Aes128::new(&key);
        let stream = ctr(&key, &iv, &[0; 35]);
        for (count, part) in stream.chunks(BLOCK).enumerate() {
            let counter = [1, 2, 3, 4, 5, 6, 7, 8, 0, 0, 0, 0, 0, 0, 0, count as u8];
            assert_eq!(part, &cipher.encrypt(&counter)[..part.len()]);
        }
        assert!(ctr(&key, &iv, &[]).is_empty());
    }
}
