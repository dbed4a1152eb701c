//! Derivation after SP 800-108, counter mode, one block of output, in 01's layout.

use crate::aes::Block;
use crate::cmac::cmac;

pub const ENC: &[u8] = b"ENC";
pub const AUTH: &[u8] = b"AUTH";

const SALT_MAX: usize = 32;

/// The prefix and the name, cut so that the whole has at most 32 bytes.
/// 01 knows the prefixes ENC and AUTH only; any other is cut the same way.
pub fn salt(prefix: &[u8], name: &[u8]) -> Vec<u8> {
    prefix.iter().chain(name).copied().take(SALT_MAX).collect()
}

/// The byte 01, the salt, the byte 00, and 00 00 00 80.
pub fn input(prefix: &[u8], name: &[u8]) -> Vec<u8> {
    let salt = salt(prefix, name);
    [&[1][..], &salt, &[0], &[0, 0, 0, 0x80]].concat()
}

pub fn derive(device_key: &Block, prefix: &[u8], name: &[u8]) -> Block {
    cmac(device_key, &input(prefix, name))
}

#[cfg(test)]
mod tests {
    use super::*;

    #[test]
    fn salt_of_a_name_of_29_bytes() {
        let name = b"abcdefghijklmnopqrstuvwxyz012";
        assert_eq!(salt(ENC, name), b"ENCabcdefghijklmnopqrstuvwxyz012");
        assert_eq!(salt(AUTH, name), b"AUTHabcdefghijklmnopqrstuvwxyz01");
    }

    #[test]
    fn input_layout() {
        assert_eq!(input(ENC, b"a"), b"\x01ENCa\0\0\0\0\x80");
    }
}
