//! The record of 01: 20 bytes of metadata, the stored data, 16 bytes of CMAC.

use crate::aes::Block;
use crate::cmac::cmac;
use crate::ctr::{ctr, Iv};
use crate::kdf::{derive, AUTH, ENC};

pub const DATA_MAX: usize = 480;
pub const RECORD_MAX: usize = 516;

const METADATA: usize = 20;
const REVISION: u16 = 1;
const CMAC: usize = 16;

/// Flags that 01 accepts: known bits, and no replay protection without integrity.
#[derive(Clone, Copy, Debug, PartialEq, Eq)]
pub struct Flags(u32);

impl Flags {
    pub fn accept(bits: u32) -> Option<Flags> {
        let flags = Flags(bits);
        (bits < 16 && (flags.integrity() || !flags.replay_protection())).then_some(flags)
    }

    pub fn bits(self) -> u32 {
        self.0
    }

    pub fn write_once(self) -> bool {
        self.0 & 1 != 0
    }

    pub fn confidentiality(self) -> bool {
        self.0 & 2 != 0
    }

    pub fn integrity(self) -> bool {
        self.0 & 4 != 0
    }

    pub fn replay_protection(self) -> bool {
        self.0 & 8 != 0
    }
}

/// A well-formed record.
#[derive(Clone, Debug, PartialEq, Eq)]
pub struct Record {
    pub flags: Flags,
    pub iv: Iv,
    /// Encrypted where the flags ask for confidentiality.
    pub stored: Vec<u8>,
    pub cmac: Block,
}

impl Record {
    /// The record that a done set makes from its arguments.
    pub fn seal(device_key: &Block, name: &[u8], flags: Flags, iv: &Iv, data: &[u8]) -> Record {
        let (iv, stored) = if flags.confidentiality() {
            (*iv, ctr(&derive(device_key, ENC, name), iv, data))
        } else {
            ([0; 8], data.to_vec())
        };
        let mut record = Record {
            flags,
            iv,
            stored,
            cmac: [0; CMAC],
        };
        if flags.integrity() {
            record.cmac = record.expected_cmac(device_key, name);
        }
        record
    }

    /// The record in these bytes, if they are well formed. Their count is the
    /// record length of the place.
    pub fn decode(bytes: &[u8]) -> Option<Record> {
        let data_size = bytes.len().checked_sub(METADATA + CMAC)?;
        let (metadata, rest) = bytes.split_at(METADATA);
        let (stored, cmac) = rest.split_at(data_size);
        let record = Record {
            flags: Flags::accept(u32::from_le_bytes(metadata[8..12].try_into().ok()?))?,
            iv: metadata[12..].try_into().ok()?,
            stored: stored.to_vec(),
            cmac: cmac.try_into().ok()?,
        };
        let flags = record.flags;
        let zeros = (flags.confidentiality() || record.iv == [0; 8])
            && (flags.integrity() || record.cmac == [0; CMAC]);
        // Sizes and revision have one right value each, so the encoding tests them.
        (data_size <= DATA_MAX && zeros && record.encode() == bytes).then_some(record)
    }

    pub fn encode(&self) -> Vec<u8> {
        [self.metadata(), self.stored.clone(), self.cmac.to_vec()].concat()
    }

    fn metadata(&self) -> Vec<u8> {
        [
            &(METADATA as u16).to_le_bytes()[..],
            &REVISION.to_le_bytes(),
            &self.data_size().to_le_bytes(),
            &self.flags.bits().to_le_bytes(),
            &self.iv,
        ]
        .concat()
    }

    pub fn data_size(&self) -> u32 {
        self.stored.len() as u32
    }

    /// Over the name, the metadata and the data as stored, under the AUTH key.
    fn expected_cmac(&self, device_key: &Block, name: &[u8]) -> Block {
        let message = [name, &self.metadata(), &self.stored].concat();
        cmac(&derive(device_key, AUTH, name), &message)
    }

    /// Whether the CMAC is right, where integrity is flagged.
    pub fn authentic(&self, device_key: &Block, name: &[u8]) -> bool {
        !self.flags.integrity() || self.cmac == self.expected_cmac(device_key, name)
    }

    /// The data, decrypted where it is stored encrypted.
    pub fn data(&self, device_key: &Block, name: &[u8]) -> Vec<u8> {
        if self.flags.confidentiality() {
            ctr(&derive(device_key, ENC, name), &self.iv, &self.stored)
        } else {
            self.stored.clone()
        }
    }
}

#[cfg(test)]
mod tests {
    use super::*;

    const KEY: Block = [9; 16];

    fn flags(bits: u32) -> Flags {
        Flags::accept(bits).unwrap()
    }

    #[test]
    fn edges_of_the_flags() {
        let good: Vec<u32> = (0..64)
            .filter(|bits| Flags::accept(*bits).is_some())
            .collect();
        assert_eq!(good, [0, 1, 2, 3, 4, 5, 6, 7, 12, 13, 14, 15]);
        assert_eq!(Flags::accept(1 << 31), None);
    }

    #[test]
    fn sealed_records_are_well_formed_and_open_again() {
        for bits in (0..16).filter(|bits| Flags::accept(*bits).is_some()) {
            for size in [0, 1, 15, 16, 17, 480] {
                let data: Vec<u8> = (0..size).map(|i| i as u8).collect();
                let record = Record::seal(&KEY, b"n", flags(bits), &[5; 8], &data);
                let bytes = record.encode();
                assert_eq!(bytes.len(), data.len() + 36);
                assert_eq!(Record::decode(&bytes), Some(record.clone()));
                assert!(record.authentic(&KEY, b"n"));
                assert_eq!(record.authentic(&KEY, b"m"), bits & 4 == 0);
                assert_eq!(record.data(&KEY, b"n"), data);
            }
        }
    }

    #[test]
    fn each_field_out_of_form_is_refused() {
        let sound = Record::seal(&KEY, b"n", flags(0), &[5; 8], b"data").encode();
        // Metadata size, revision, data size, flags, IV and CMAC in turn.
        for at in [0, 1, 2, 3, 4, 5, 6, 7, 8, 9, 10, 11, 12, 19, 24, 39] {
            let mut bytes = sound.clone();
            bytes[at] ^= if at == 8 { 8 } else { 1 };
            let write_once = at == 8 && bytes[8] == 1;
            assert_eq!(Record::decode(&bytes).is_some(), write_once, "byte {at}");
        }
        assert_eq!(Record::decode(&sound[..39]), None);
        assert_eq!(Record::decode(&[]), None);
        let mut long = sound;
        long.push(0);
        assert_eq!(Record::decode(&long), None);
    }

    #[test]
    fn data_over_480_is_not_well_formed() {
        let long = Record::seal(&KEY, b"n", flags(0), &[0; 8], &[1; 481]).encode();
        assert_eq!(Record::decode(&long), None);
    }
}
