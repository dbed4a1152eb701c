//! The mix of 02, No. 5: a session number, and up to 16 sends with their levels and
//! pans as bits.
//!
//! What a level and a pan may be is said twice: of the bits, with integers alone,
//! which the decoder asks, and of the numbers, with Rust's `f32`, which the encoder
//! asks. `floats` compares the two.

use crate::answer::Why;

/// Each record whose name begins so is tried for a mix.
pub const PREFIX: &[u8] = b"mix/";
pub const SENDS_MAX: usize = 16;
pub const MIX_MAX: usize = HEADER + SENDS_MAX * SEND;
pub const SEND: usize = 9;
/// The session number and the count.
pub const HEADER: usize = 9;

pub const MUTED: u8 = 0;
pub const LEVEL: u8 = 1;
pub const LEVEL_AND_PAN: u8 = 2;

/// Levels and pans as the bits that are kept: two zeros differ.
#[derive(Clone, Copy, Debug, PartialEq, Eq)]
pub enum Send {
    Muted,
    Level(u32),
    LevelAndPan(u32, u32),
}

#[derive(Clone, Debug, PartialEq, Eq)]
pub struct Mix {
    pub session: u64,
    pub sends: Vec<Send>,
}

/// The parts of a 32-bit float: sign, exponent as it is kept, fraction.
fn parts(bits: u32) -> (bool, u32, u32) {
    (bits >> 31 == 1, bits >> 23 & 0xff, bits & 0x007f_ffff)
}

/// Whether the number without its sign is at most the power of two whose exponent is
/// kept as this one. Infinities and NaNs have 255.
fn at_most_power(bits: u32, power: u32) -> bool {
    let (_, exponent, fraction) = parts(bits);
    exponent < power || exponent == power && fraction == 0
}

/// From 0 to 4, of the bits: a sign only before a zero; 4 is kept as 129, 0.
pub fn level_bits(bits: u32) -> bool {
    let (negative, exponent, fraction) = parts(bits);
    let zero = exponent == 0 && fraction == 0;
    at_most_power(bits, 129) && (!negative || zero)
}

/// From -1 to 1, of the bits: 1 is kept as 127, 0.
pub fn pan_bits(bits: u32) -> bool {
    at_most_power(bits, 127)
}

/// The same of the numbers: a NaN is neither at least nor at most anything.
pub fn level_number(level: f32) -> bool {
    (0.0..=4.0).contains(&level)
}

pub fn pan_number(pan: f32) -> bool {
    (-1.0..=1.0).contains(&pan)
}

impl Send {
    /// The send of this tag, as far as the tag asks for level and pan, whatever they are.
    pub fn tagged(tag: u8, level: u32, pan: u32) -> Option<Send> {
        match tag {
            MUTED => Some(Send::Muted),
            LEVEL => Some(Send::Level(level)),
            LEVEL_AND_PAN => Some(Send::LevelAndPan(level, pan)),
            _ => None,
        }
    }

    pub fn tag(self) -> u8 {
        match self {
            Send::Muted => MUTED,
            Send::Level(_) => LEVEL,
            Send::LevelAndPan(..) => LEVEL_AND_PAN,
        }
    }

    /// Zeros where the send has none.
    pub fn level(self) -> u32 {
        match self {
            Send::Muted => 0,
            Send::Level(level) | Send::LevelAndPan(level, _) => level,
        }
    }

    pub fn pan(self) -> u32 {
        match self {
            Send::LevelAndPan(_, pan) => pan,
            _ => 0,
        }
    }

    fn encode(self) -> Vec<u8> {
        let (level, pan) = (self.level().to_le_bytes(), self.pan().to_le_bytes());
        [&[self.tag()][..], &level, &pan].concat()
    }

    /// The send in these nine bytes. It has to be their encoding, which tests the
    /// bytes that are not used.
    fn decode(bytes: &[u8]) -> Result<Send, Why> {
        let number = |at: usize| u32::from_le_bytes(std::array::from_fn(|i| bytes[at + i]));
        let send = Send::tagged(bytes[0], number(1), number(5)).ok_or(Why::MixTag)?;
        test(level_bits(send.level()), Why::MixLevel)?;
        test(pan_bits(send.pan()), Why::MixPan)?;
        test(send.encode() == bytes, Why::MixUnused)?;
        Ok(send)
    }
}

fn test(good: bool, why: Why) -> Result<(), Why> {
    if good {
        Ok(())
    } else {
        Err(why)
    }
}

impl Mix {
    /// The mix of these sends; level and pan are asked for only where the tag has them.
    pub fn new(session: u64, sends: &[(u8, f32, f32)]) -> Result<Mix, Why> {
        test(sends.len() <= SENDS_MAX, Why::MixCount)?;
        let send = |(tag, level, pan): &(u8, f32, f32)| {
            let send = Send::tagged(*tag, level.to_bits(), pan.to_bits()).ok_or(Why::MixTag)?;
            test(*tag == MUTED || level_number(*level), Why::MixLevel)?;
            test(*tag != LEVEL_AND_PAN || pan_number(*pan), Why::MixPan)?;
            Ok(send)
        };
        let sends: Result<Vec<Send>, Why> = sends.iter().map(send).collect();
        Ok(Mix {
            session,
            sends: sends?,
        })
    }

    pub fn encode(&self) -> Vec<u8> {
        let mut bytes = self.session.to_le_bytes().to_vec();
        bytes.push(self.sends.len() as u8);
        bytes.extend(self.sends.iter().flat_map(|send| send.encode()));
        bytes
    }

    /// The mix in these bytes, or why they are none: any of these is 20.
    pub fn decode(bytes: &[u8]) -> Result<Mix, Why> {
        let header = bytes.get(..HEADER).ok_or(Why::MixLength)?;
        let (session, count) = (&header[..8], usize::from(header[8]));
        test(count <= SENDS_MAX, Why::MixCount)?;
        test(bytes.len() == HEADER + count * SEND, Why::MixLength)?;
        let sends = bytes[HEADER..].chunks_exact(SEND).map(Send::decode);
        Ok(Mix {
            session: u64::from_le_bytes(std::array::from_fn(|i| session[i])),
            sends: sends.collect::<Result<Vec<Send>, Why>>()?,
        })
    }
}

#[cfg(test)]
mod tests {
    use super::*;

    #[test]
    fn layout() {
        let mix = Mix {
            session: 0x0102_0304_0506_0708,
            sends: vec![
                Send::Muted,
                Send::Level(1.0_f32.to_bits()),
                Send::LevelAndPan((-0.0_f32).to_bits(), (-1.0_f32).to_bits()),
            ],
        };
        let bytes = b"\x08\x07\x06\x05\x04\x03\x02\x01\x03\
            \0\0\0\0\0\0\0\0\0\
            \x01\0\0\x80\x3f\0\0\0\0\
            \x02\0\0\0\x80\0\0\x80\xbf";
        assert_eq!(mix.encode(), bytes);
        assert_eq!(Mix::decode(bytes), Ok(mix.clone()));
        let sends = [(0, f32::NAN, 9.0), (1, 1.0, f32::NAN), (2, -0.0, -1.0)];
        assert_eq!(Mix::new(0x0102_0304_0506_0708, &sends), Ok(mix));
    }

    #[test]
    fn bytes_over_or_missing() {
        for count in 0..=16 {
            let sends = vec![Send::Level(0); count];
            let bytes = Mix { session: 7, sends }.encode();
            assert_eq!(bytes.len(), 9 + 9 * count);
            assert!(Mix::decode(&bytes).is_ok());
            for length in 0..bytes.len() {
                assert_eq!(Mix::decode(&bytes[..length]), Err(Why::MixLength));
            }
            let over = [&bytes[..], &[0]].concat();
            assert_eq!(Mix::decode(&over), Err(Why::MixLength));
        }
        let mut more = vec![0; 9 + 9 * 17];
        more[8] = 17;
        assert_eq!(Mix::decode(&more), Err(Why::MixCount));
    }

    #[test]
    fn each_way_to_be_wrong() {
        let wrong: [(&[u8; 9], Why); 8] = [
            (b"\x03\0\0\0\0\0\0\0\0", Why::MixTag),
            (b"\xff\0\0\0\0\0\0\0\0", Why::MixTag),
            (b"\x00\0\0\0\0\0\0\0\x80", Why::MixUnused),
            (b"\x00\x01\0\0\0\0\0\0\0", Why::MixUnused),
            (b"\x01\0\0\0\0\0\0\0\x80", Why::MixUnused),
            (b"\x01\x01\0\x80\x40\0\0\0\0", Why::MixLevel),
            (b"\x02\x01\0\0\x80\0\0\0\0", Why::MixLevel),
            (b"\x02\0\0\0\0\x01\0\x80\xbf", Why::MixPan),
        ];
        for (send, why) in wrong {
            let bytes = [&[0, 0, 0, 0, 0, 0, 0, 0, 1][..], send].concat();
            assert_eq!(Mix::decode(&bytes), Err(why), "{send:x?}");
        }
    }
}
