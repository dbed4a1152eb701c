//! 02, No. 6: a night played back, from the bytes read to the bytes printed.
//!
//! Points that 02 leaves to the reader, and the reading used here:
//!
//! - A line ends with its newline or with the input: a newline at the very end begins no
//!   other line, and an empty line is a line like any other, unreadable.
//! - The fields have to be as many as 02 names, so a tab at either end of a line is one
//!   field too many. Each may be empty; a name may.
//! - Only tab and newline part anything. CR, NUL and 0xff are bytes like any other.
//! - Words are in lower case, as 02 writes them.
//! - An IV or data of a wrong length, or a bad name, can be read: the store refuses it.
//! - The 1,100 bytes hold for the first line too.

use std::fmt;

use crate::answer::Why;
use crate::area::{ENTRY, PLACE};
use crate::calls::{self, Call};
use crate::record::DATA_MAX;

pub const LINE_MAX: usize = 1_100;
const PLACES_MAX: u64 = 64;

/// Why a line can't be read. All print 15.
#[derive(Clone, Copy, Debug, PartialEq, Eq, PartialOrd, Ord)]
pub enum Unreadable {
    /// There is no first line.
    NoLine,
    LineTooLong,
    UnknownWord,
    FieldCount,
    NoDigit,
    NotADigit,
    NumberTooBig,
    OddHex,
    NotHex,
    KeyLength,
    Places,
}

impl Unreadable {
    pub const NUMBER: u32 = 15;
}

/// What became of a line.
#[derive(Clone, Copy, Debug, PartialEq, Eq, PartialOrd, Ord)]
pub enum Verdict {
    /// A call of this kind was done, or refused by a test.
    Called(usize, Option<Why>),
    Unread(Unreadable),
    /// The first line can't be read.
    NotBegun(Unreadable),
}

impl Verdict {
    pub fn number(self) -> u32 {
        match self {
            Verdict::Called(_, why) => why.map_or(0, Why::number),
            Verdict::Unread(_) | Verdict::NotBegun(_) => Unreadable::NUMBER,
        }
    }
}

impl fmt::Display for Verdict {
    fn fmt(&self, f: &mut fmt::Formatter) -> fmt::Result {
        match self {
            Verdict::Called(kind, None) => write!(f, "{} done", Call::KINDS[*kind]),
            Verdict::Called(kind, Some(why)) => write!(f, "{} {why:?}", Call::KINDS[*kind]),
            Verdict::Unread(why) => write!(f, "line {why:?}"),
            Verdict::NotBegun(why) => write!(f, "first line {why:?}"),
        }
    }
}

/// A line of the output.
#[derive(Clone, Debug, PartialEq, Eq)]
pub struct Reply {
    pub verdict: Verdict,
    pub bytes: Vec<u8>,
}

impl Reply {
    pub fn without_bytes(verdict: Verdict) -> Reply {
        Reply {
            verdict,
            bytes: Vec::new(),
        }
    }
}

/// The box during a night.
#[derive(Clone)]
pub struct Player {
    pub key: Vec<u8>,
    pub card: Vec<u8>,
    pub chip: Vec<u8>,
}

impl Player {
    /// From the first line.
    pub fn begin(line: &[u8]) -> Result<Player, Unreadable> {
        match fields(line)?[..] {
            [key, places] => {
                let key = bytes_of(key)?;
                let places = number(places, PLACES_MAX)?;
                if key.len() != 16 {
                    return Err(Unreadable::KeyLength);
                }
                if places == 0 {
                    return Err(Unreadable::Places);
                }
                Ok(Player {
                    key,
                    card: vec![0; places as usize * PLACE],
                    chip: vec![0; places as usize * ENTRY],
                })
            }
            _ => Err(Unreadable::FieldCount),
        }
    }

    /// The answer to a later line.
    pub fn play(&mut self, line: &[u8]) -> Reply {
        match self.call(line) {
            Ok(call) => self.answer(&call),
            Err(why) => Reply::without_bytes(Verdict::Unread(why)),
        }
    }

    pub fn answer(&mut self, call: &Call) -> Reply {
        let (answer, why) = calls::answer(&self.card, &self.chip, call);
        self.card = answer.card;
        self.chip = answer.chip;
        // Only a get returns bytes: as many as its count.
        let count = answer.returned[0] as usize;
        Reply {
            verdict: Verdict::Called(call.kind(), why),
            bytes: answer.output[..count].to_vec(),
        }
    }

    /// What the line asks for.
    pub fn call(&self, line: &[u8]) -> Result<Call, Unreadable> {
        self.asked(&fields(line)?)
    }

    /// The same of its fields, which are one at least.
    pub fn asked(&self, fields: &[&[u8]]) -> Result<Call, Unreadable> {
        match (fields[0], &fields[1..]) {
            (b"set", [name, flags, iv, data]) => Ok(Call::Set {
                key: self.key.clone(),
                name: name.to_vec(),
                flags: number(flags, u32::MAX.into())? as u32,
                iv: bytes_of(iv)?,
                data: bytes_of(data)?,
            }),
            (b"get", [name]) => Ok(Call::Get {
                key: self.key.clone(),
                name: name.to_vec(),
                offset: 0,
                output: vec![0; DATA_MAX],
            }),
            (b"remove", [name]) => Ok(Call::Remove {
                name: name.to_vec(),
            }),
            (b"set" | b"get" | b"remove", _) => Err(Unreadable::FieldCount),
            _ => Err(Unreadable::UnknownWord),
        }
    }
}

/// The lines of a night, without their newlines.
pub fn lines(night: &[u8]) -> Vec<&[u8]> {
    let mut lines: Vec<&[u8]> = night.split(|byte| *byte == b'\n').collect();
    // Behind the last newline there is a line only where there are bytes.
    if lines.last().map_or(false, |line| line.is_empty()) {
        lines.pop();
    }
    lines
}

fn fields(line: &[u8]) -> Result<Vec<&[u8]>, Unreadable> {
    if line.len() > LINE_MAX {
        return Err(Unreadable::LineTooLong);
    }
    Ok(line.split(|byte| *byte == b'\t').collect())
}

/// A decimal number up to `most`, with any number of zeros in front.
fn number(digits: &[u8], most: u64) -> Result<u64, Unreadable> {
    if digits.is_empty() {
        return Err(Unreadable::NoDigit);
    }
    if !digits.iter().all(u8::is_ascii_digit) {
        return Err(Unreadable::NotADigit);
    }
    digits.iter().try_fold(0, |value, digit| {
        let value = value * 10 + u64::from(digit - b'0');
        if value > most {
            return Err(Unreadable::NumberTooBig);
        }
        Ok(value)
    })
}

fn bytes_of(hex: &[u8]) -> Result<Vec<u8>, Unreadable> {
    let value = |digit: &u8| match digit {
        b'0'..=b'9' => Ok(digit - b'0'),
        b'a'..=b'f' => Ok(digit - b'a' + 10),
        b'A'..=b'F' => Ok(digit - b'A' + 10),
        _ => Err(Unreadable::NotHex),
    };
    if hex.len() % 2 != 0 {
        return Err(Unreadable::OddHex);
    }
    let pairs = hex.chunks_exact(2);
    pairs
        .map(|pair| Ok(value(&pair[0])? << 4 | value(&pair[1])?))
        .collect()
}

/// The answers of a night, in order.
pub fn play(night: &[u8]) -> Vec<Reply> {
    let lines = lines(night);
    let first = lines.first().ok_or(Unreadable::NoLine);
    match first.and_then(|line| Player::begin(line)) {
        Ok(mut player) => lines[1..].iter().map(|line| player.play(line)).collect(),
        Err(why) => vec![Reply::without_bytes(Verdict::NotBegun(why))],
    }
}

pub fn print(replies: &[Reply]) -> Vec<u8> {
    const DIGITS: &[u8; 16] = b"0123456789abcdef";
    let mut printed = Vec::new();
    for reply in replies {
        printed.extend(reply.verdict.number().to_string().bytes());
        printed.push(b'\t');
        for byte in &reply.bytes {
            printed.push(DIGITS[usize::from(byte >> 4)]);
            printed.push(DIGITS[usize::from(byte & 15)]);
        }
        printed.push(b'\n');
    }
    printed
}

/// What the program prints when it reads these bytes.
pub fn replay(night: &[u8]) -> Vec<u8> {
    print(&play(night))
}

#[cfg(test)]
mod tests {
    use super::*;
    use crate::night_edges;

    #[test]
    fn the_example_of_02() {
        let night = b"00112233445566778899aabbccddeeff\t1\n\
            set\ta\t0\t0000000000000000\t4142\nget\ta\nremove\tb\n";
        assert_eq!(replay(night), b"0\t\n0\t4142\n6\t\n");
    }

    #[test]
    fn the_edges() {
        for (name, night, printed) in night_edges::table() {
            let got = replay(&night);
            assert_eq!(
                got.escape_ascii().to_string(),
                printed.escape_ascii().to_string(),
                "{name}"
            );
        }
    }

    #[test]
    fn the_first_line_makes_card_and_chip() {
        let key = [b'f'; 32];
        for places in 1..=64 {
            let line = [&key[..], format!("\t{places}").as_bytes()].concat();
            let player = Player::begin(&line).ok().unwrap();
            assert_eq!(player.key, [0xff; 16]);
            assert_eq!(player.card, vec![0; places * 584]);
            assert_eq!(player.chip, vec![0; places * 82]);
        }
    }

    #[test]
    fn why_a_line_cannot_be_read() {
        use Unreadable::*;
        let player = Player::begin(b"00112233445566778899AABBCCDDEEFF\t064").ok();
        let player = player.unwrap();
        let long = [&b"get\t"[..], &[b'a'; 1_097]].concat();
        let table: [(&[u8], Unreadable); 15] = [
            (b"", UnknownWord),
            (b"\t", UnknownWord),
            (b"GET\ta", UnknownWord),
            (b"get", FieldCount),
            (b"get\ta\t", FieldCount),
            (b"remove\ta\tb", FieldCount),
            (b"set\ta\t0\t0000000000000000", FieldCount),
            (b"set\ta\t\t\t", NoDigit),
            (b"set\ta\t+1\t\t", NotADigit),
            (b"set\ta\t4294967296\t\t", NumberTooBig),
            (b"set\ta\t99999999999999999999999999\t\t", NumberTooBig),
            (b"set\ta\t0\t0\t", OddHex),
            (b"set\ta\t0\t\t414", OddHex),
            (b"set\ta\t0\t0g\t", NotHex),
            (&long, LineTooLong),
        ];
        for (line, why) in table {
            assert_eq!(player.call(line), Err(why), "{}", line.escape_ascii());
        }
        assert!(player.call(&long[..1_100]).is_ok());
    }

    #[test]
    fn why_a_night_does_not_begin() {
        use Unreadable::*;
        let table: [(&[u8], Unreadable); 10] = [
            (b"", NoLine),
            (b"\n", FieldCount),
            (b"\t", NoDigit),
            (b"\t1", KeyLength),
            (b"0011\t1", KeyLength),
            (b"00112233445566778899aabbccddeef\t1", OddHex),
            (b"00112233445566778899aabbccddeefg\t1", NotHex),
            (b"00112233445566778899aabbccddeeff\t0", Places),
            (b"00112233445566778899aabbccddeeff\t65", NumberTooBig),
            (b"00112233445566778899aabbccddeeff\t", NoDigit),
        ];
        for (night, why) in table {
            let reply = Reply::without_bytes(Verdict::NotBegun(why));
            assert_eq!(play(night), [reply], "{}", night.escape_ascii());
        }
    }

    #[test]
    fn numbers() {
        assert_eq!(number(b"0", 0), Ok(0));
        assert_eq!(number(b"4294967295", u32::MAX.into()), Ok(u32::MAX.into()));
        let zeros = [&[b'0'; 1_000][..], b"64"].concat();
        assert_eq!(number(&zeros, 64), Ok(64));
        assert_eq!(number(&zeros, 63), Err(Unreadable::NumberTooBig));
        for bad in [b'/', b':', b'a', b' ', b'-', 0, 0xb2, b'\r'] {
            assert_eq!(number(&[b'1', bad], 64), Err(Unreadable::NotADigit));
        }
    }

    #[test]
    fn hex() {
        assert_eq!(bytes_of(b""), Ok(vec![]));
        assert_eq!(
            bytes_of(b"09aAfF90AaFf"),
            Ok(vec![9, 0xaa, 0xff, 0x90, 0xaa, 0xff])
        );
        for bad in [b'/', b':', b'@', b'G', b'`', b'g', b' ', b'x', 0, 0xff] {
            assert_eq!(bytes_of(&[b'0', bad]), Err(Unreadable::NotHex));
            assert_eq!(bytes_of(&[bad, b'0']), Err(Unreadable::NotHex));
        }
    }
}
