//! Key files: the later layout of document 004, as 01 fixes it.

use crate::record::DATA_MAX;

pub const MATERIAL_MAX: usize = DATA_MAX - HEADER;
const HEADER: usize = 36;
const MAGIC: &[u8; 8] = b"PSA\0KEY\0";
const VERSION: u32 = 0;

/// Type and policy numbers: carried and not judged.
#[derive(Clone, Copy, Debug, Default, PartialEq, Eq)]
pub struct Attributes {
    pub lifetime: u32,
    pub kind: u32,
    pub usage: u32,
    pub algorithm: u32,
    pub enrollment: u32,
}

#[derive(Clone, Debug, PartialEq, Eq)]
pub struct KeyFile {
    pub attributes: Attributes,
    pub material: Vec<u8>,
}

impl KeyFile {
    /// `None` where the material is over 444 bytes.
    pub fn new(attributes: Attributes, material: &[u8]) -> Option<KeyFile> {
        (material.len() <= MATERIAL_MAX).then(|| KeyFile {
            attributes,
            material: material.to_vec(),
        })
    }

    pub fn encode(&self) -> Vec<u8> {
        let mut file = MAGIC.to_vec();
        file.extend(VERSION.to_le_bytes());
        for number in self.numbers() {
            file.extend(number.to_le_bytes());
        }
        file.extend(&self.material);
        file
    }

    /// The attributes, then the material's length, in the file's order.
    pub fn numbers(&self) -> [u32; 6] {
        let Attributes {
            lifetime,
            kind,
            usage,
            algorithm,
            enrollment,
        } = self.attributes;
        let length = self.material.len() as u32;
        [lifetime, kind, usage, algorithm, enrollment, length]
    }

    /// `None` for what is not a key file.
    pub fn decode(file: &[u8]) -> Option<KeyFile> {
        let (header, material) = (file.get(..HEADER)?, &file[HEADER..]);
        let number = |at: usize| u32::from_le_bytes(std::array::from_fn(|i| header[at + i]));
        let attributes = Attributes {
            lifetime: number(12),
            kind: number(16),
            usage: number(20),
            algorithm: number(24),
            enrollment: number(28),
        };
        // Magic, version and material length have one right value each.
        let read = KeyFile::new(attributes, material)?;
        (read.encode() == file).then_some(read)
    }
}

/// The name of a key: 16 lower-case hex digits; `None` outside 1 to 0xfffeffff.
pub fn key_name(identifier: u32) -> Option<Vec<u8>> {
    (1..=0xfffe_ffff)
        .contains(&identifier)
        .then(|| format!("{identifier:016x}").into_bytes())
}

#[cfg(test)]
mod tests {
    use super::*;

    #[test]
    fn identifiers() {
        assert_eq!(key_name(42).unwrap(), b"000000000000002a");
        assert_eq!(key_name(1).unwrap(), b"0000000000000001");
        assert_eq!(key_name(0xfffe_ffff).unwrap(), b"00000000fffeffff");
        assert_eq!(key_name(0), None);
        assert_eq!(key_name(0xffff_0000), None);
        assert_eq!(key_name(u32::MAX), None);
    }

    #[test]
    fn layout() {
        let attributes = Attributes {
            lifetime: 1,
            kind: 0x0203,
            usage: 4,
            algorithm: 5,
            enrollment: 0x06000000,
        };
        let file = KeyFile::new(attributes, b"xyz").unwrap();
        let bytes = file.encode();
        let expected =
            b"PSA\0KEY\0\0\0\0\0\x01\0\0\0\x03\x02\0\0\x04\0\0\0\x05\0\0\0\0\0\0\x06\x03\0\0\0xyz";
        assert_eq!(bytes, expected);
        assert_eq!(KeyFile::decode(&bytes), Some(file));
        for length in 0..bytes.len() {
            assert_eq!(KeyFile::decode(&bytes[..length]), None);
        }
        assert_eq!(KeyFile::decode(&[&bytes[..], &[0]].concat()), None);
        for at in (0..12).chain(32..36) {
            let mut wrong = bytes.clone();
            wrong[at] ^= 1;
            assert_eq!(KeyFile::decode(&wrong), None);
        }
    }

    #[test]
    fn material_bounds() {
        let attributes = KeyFile::decode(&[&MAGIC[..], &[0; 28]].concat())
            .unwrap()
            .attributes;
        let longest = KeyFile::new(attributes, &[1; 444]).unwrap().encode();
        assert_eq!(longest.len(), 480);
        assert!(KeyFile::decode(&longest).is_some());
        assert_eq!(KeyFile::new(attributes, &[1; 445]), None);
        let mut more = longest;
        more.push(1);
        more[32..36].copy_from_slice(&445u32.to_le_bytes());
        assert_eq!(KeyFile::decode(&more), None);
    }
}
