//! 02, No. 2: a set whose data arrive in chunks. The handle is decoded into a
//! value and encoded again; the chunks are put together in the staging buffer.
//!
//! Points that 02 leaves to the reader, and the reading used here:
//!
//! - The IV is a lent buffer of fixed length, so `set_start` gives 1 for it before
//!   its 3 and 5.
//! - The staging buffer has exactly 480 bytes ("of 480 bytes", where 01's table
//!   says "under" of other buffers).
//! - `set_start` judges the name's length alone, and no flags: 02 gives it 3 "for a
//!   name over 64 bytes". An empty name or a bad byte is told by `set_finalize`.
//! - A chunk is past the declared size if it would end behind it, so an empty one
//!   never is.
//! - `set_finalize` hands no handle back: its answer is the number.

use crate::answer::Why;
use crate::area::NAME_MAX;
use crate::ctr::Iv;
use crate::record::DATA_MAX;

pub const HANDLE: usize = 88;
pub const STAGING: usize = DATA_MAX;

pub type HandleBytes = [u8; HANDLE];

/// Any bytes are a handle, those that no call hands out too.
#[derive(Clone, Debug, PartialEq, Eq)]
pub struct Handle {
    pub name: [u8; NAME_MAX],
    pub name_length: u32,
    pub flags: u32,
    pub iv: Iv,
    pub declared: u32,
    pub count: u32,
}

impl Handle {
    /// The all-zero state, which a refused `set_start` returns.
    pub const ZERO: HandleBytes = [0; HANDLE];

    /// 3 and 5; the IV's length was tested.
    pub fn start(name: &[u8], flags: u32, iv: Iv, declared: usize) -> Result<Handle, Why> {
        if name.len() > NAME_MAX {
            return Err(Why::NameTooLong);
        }
        if declared > DATA_MAX {
            return Err(Why::DeclaredTooLong);
        }
        Ok(Handle {
            name: std::array::from_fn(|at| name.get(at).copied().unwrap_or(0)),
            name_length: name.len() as u32,
            flags,
            iv,
            declared: declared as u32,
            count: 0,
        })
    }

    pub fn decode(bytes: &HandleBytes) -> Handle {
        let (name, numbers) = bytes.split_at(NAME_MAX);
        let number = |at: usize| {
            let four = numbers[at..at + 4].try_into().expect("four bytes");
            u32::from_le_bytes(four)
        };
        Handle {
            name: name.try_into().expect("64 bytes"),
            name_length: number(0),
            flags: number(4),
            iv: numbers[8..16].try_into().expect("eight bytes"),
            declared: number(16),
            count: number(20),
        }
    }

    pub fn encode(&self) -> HandleBytes {
        let bytes = [
            &self.name[..],
            &self.name_length.to_le_bytes(),
            &self.flags.to_le_bytes(),
            &self.iv,
            &self.declared.to_le_bytes(),
            &self.count.to_le_bytes(),
        ];
        bytes.concat().try_into().expect("88 bytes")
    }

    /// The first bytes of its name, as many as the name length says; all 64 where
    /// it says more, which is no good name and refused before a name is asked for.
    pub fn name(&self) -> &[u8] {
        let length = self.name_length.min(NAME_MAX as u32);
        &self.name[..length as usize]
    }

    /// 19 for a broken handle.
    fn test(&self) -> Result<(), Why> {
        if self.name_length > NAME_MAX as u32 {
            Err(Why::HandleNameLength)
        } else if self.declared > DATA_MAX as u32 {
            Err(Why::HandleDeclared)
        } else if self.count > self.declared {
            Err(Why::HandleCount)
        } else {
            Ok(())
        }
    }

    /// Handle and staging buffer with one more chunk.
    pub fn add_data(&self, staging: &[u8], chunk: &[u8]) -> Result<(Handle, Vec<u8>), Why> {
        test_staging(staging)?;
        self.test()?;
        if chunk.len() as u64 > u64::from(self.declared - self.count) {
            return Err(Why::ChunkPastDeclared);
        }
        let (held, rest) = staging.split_at(self.count as usize);
        let handle = Handle {
            count: self.count + chunk.len() as u32,
            ..self.clone()
        };
        Ok((handle, [held, chunk, &rest[chunk.len()..]].concat()))
    }

    /// The bytes that a `set_finalize` stores: 1 for the staging buffer, then 19.
    pub fn whole<'a>(&self, staging: &'a [u8]) -> Result<&'a [u8], Why> {
        test_staging(staging)?;
        self.test()?;
        if self.count < self.declared {
            return Err(Why::DataMissing);
        }
        Ok(&staging[..self.count as usize])
    }
}

fn test_staging(staging: &[u8]) -> Result<(), Why> {
    if staging.len() == STAGING {
        Ok(())
    } else {
        Err(Why::StagingLength)
    }
}

#[cfg(test)]
mod tests {
    use super::*;

    /// A handle written out: "ab", flags 14, 300 bytes declared and 2 held.
    fn bytes(count: u8) -> HandleBytes {
        let mut bytes = [0; HANDLE];
        bytes[..2].copy_from_slice(b"ab");
        bytes[64] = 2;
        bytes[68] = 14;
        bytes[72..80].copy_from_slice(b"12345678");
        bytes[80..82].copy_from_slice(&[0x2c, 1]);
        bytes[84] = count;
        bytes
    }

    #[test]
    fn a_handle_is_laid_out_as_declared() {
        let handle = Handle::start(b"ab", 14, *b"12345678", 300).unwrap();
        assert_eq!(handle.encode(), bytes(0));
        assert_eq!(Handle::decode(&bytes(0)), handle);
        let wild: HandleBytes = std::array::from_fn(|at| at as u8 ^ 0xa5);
        assert_eq!(Handle::decode(&wild).encode(), wild);
        let numbers = Handle::decode(&std::array::from_fn(|at| at as u8));
        assert_eq!(numbers.name_length, 0x4342_4140);
        assert_eq!(numbers.flags, 0x4746_4544);
        assert_eq!(numbers.iv, *b"HIJKLMNO");
        assert_eq!(numbers.declared, 0x5352_5150);
        assert_eq!(numbers.count, 0x5756_5554);
    }

    #[test]
    fn set_start_judges_the_length_of_the_name_and_the_declared_size() {
        let start = |name: &[u8], declared| {
            let handle = Handle::start(name, u32::MAX, [0; 8], declared);
            handle.map_or_else(Why::number, |_| 0)
        };
        for (length, number) in [(0, 0), (1, 0), (63, 0), (64, 0), (65, 3), (200, 3)] {
            for byte in [b'n', 0, 0x7f, 0xff] {
                assert_eq!(start(&vec![byte; length], 480), number);
            }
        }
        for (declared, number) in [(0, 0), (480, 0), (481, 5), (1 << 32, 5), (usize::MAX, 5)] {
            assert_eq!(start(b"n", declared), number);
            assert_eq!(start(&[b'n'; 65], declared), 3);
        }
    }

    #[test]
    fn a_chunk_goes_straight_after_the_bytes_held() {
        let staging: Vec<u8> = (0..480).map(|at| at as u8).collect();
        let handle = Handle::decode(&bytes(2));
        let (grown, filled) = handle.add_data(&staging, b"XYZ").unwrap();
        assert_eq!(grown.encode(), bytes(5));
        assert_eq!(filled[..8], [0, 1, b'X', b'Y', b'Z', 5, 6, 7]);
        assert_eq!(filled[8..], staging[8..]);
        // 298 bytes more are the declared 300, and 299 are one too many.
        let (grown, filled) = handle.add_data(&staging, &[7; 298]).unwrap();
        assert_eq!((grown.count, grown.declared), (300, 300));
        assert_eq!(filled[..3], [0, 1, 7]);
        assert_eq!(filled[299..302], [7, 300_u16 as u8, 301_u16 as u8]);
        assert_eq!(
            handle.add_data(&staging, &[7; 299]),
            Err(Why::ChunkPastDeclared)
        );
        assert_eq!(
            handle.add_data(&staging, b""),
            Ok((handle.clone(), staging.clone()))
        );
        // Once all is there only the empty chunk is not past it.
        assert_eq!(grown.add_data(&staging, b"x"), Err(Why::ChunkPastDeclared));
        assert_eq!(grown.add_data(&staging, b""), Ok((grown.clone(), staging)));
    }

    fn changed(change: impl Fn(&mut Handle)) -> Handle {
        let mut handle = Handle::start(b"ab", 14, [0; 8], 3).unwrap();
        handle.count = 3;
        change(&mut handle);
        handle
    }

    #[test]
    fn a_broken_handle_gives_19() {
        let broken = [
            (
                Why::HandleNameLength,
                changed(|handle| handle.name_length = 65),
            ),
            (
                Why::HandleNameLength,
                changed(|handle| handle.name_length = u32::MAX),
            ),
            (Why::HandleDeclared, changed(|handle| handle.declared = 481)),
            (
                Why::HandleDeclared,
                changed(|handle| handle.declared = u32::MAX),
            ),
            (Why::HandleCount, changed(|handle| handle.count = 4)),
            (Why::HandleCount, changed(|handle| handle.count = u32::MAX)),
            (Why::HandleCount, changed(|handle| handle.declared = 0)),
        ];
        for (why, handle) in broken {
            assert_eq!(why.number(), 19);
            assert_eq!(handle.whole(&[0; 480]), Err(why));
            assert_eq!(handle.add_data(&[0; 480], b"").unwrap_err(), why);
            for length in [0, 479, 481, 960] {
                let staging = vec![0; length];
                assert_eq!(handle.whole(&staging), Err(Why::StagingLength));
                assert_eq!(
                    handle.add_data(&staging, b"").unwrap_err(),
                    Why::StagingLength
                );
            }
        }
    }

    #[test]
    fn the_bytes_held_are_whole_when_none_is_missing() {
        assert_eq!(changed(|_| {}).whole(&[7; 480]), Ok(&[7; 3][..]));
        let short = changed(|handle| handle.count = 2);
        assert_eq!(short.whole(&[7; 480]), Err(Why::DataMissing));
        assert_eq!(Why::DataMissing.number(), 19);
        let full = changed(|handle| (handle.declared, handle.count) = (480, 480));
        assert_eq!(full.whole(&[7; 480]), Ok(&[7; 480][..]));
        let zero = Handle::decode(&Handle::ZERO);
        assert_eq!(zero.whole(&[7; 480]), Ok(&[][..]));
        assert_eq!(zero.name(), b"");
    }

    #[test]
    fn the_name_is_what_the_name_length_counts() {
        let mut handle = changed(|handle| handle.name[2] = b'c');
        assert_eq!(handle.name(), b"ab");
        for (length, counted) in [(0, 0), (3, 3), (64, 64), (65, 64), (u32::MAX, 64)] {
            handle.name_length = length;
            assert_eq!(handle.name().len(), counted);
        }
    }
}
