//! The syntax of the edges' files: fields, bytes and numbers.

use crate::keyfile::Attributes;

/// More repetitions than any line needs, and few enough for any memory.
const TIMES_MAX: u64 = 65_535;

/// What was read, or why the line counts as one that differs.
pub type Read<T> = Result<T, String>;

/// A line that cannot be read or carried out.
pub fn refuse<T>() -> Read<T> {
    Err("cannot be read or carried out".into())
}

/// One field of an answer.
#[derive(Clone, Debug, PartialEq, Eq)]
pub enum Value {
    Number(u64),
    Bytes(Vec<u8>),
}

impl Value {
    fn is(&self, field: &[u8]) -> bool {
        match self {
            Value::Number(value) => number(field, u64::MAX) == Some(*value),
            Value::Bytes(value) => bytes(field).as_ref() == Some(value),
        }
    }

    fn spell(&self) -> String {
        match self {
            Value::Number(value) => value.to_string(),
            Value::Bytes(value) => spell(value),
        }
    }
}

/// An answer's fields as a line would have to say them.
pub fn spell_all(values: &[Value]) -> String {
    let fields: Vec<String> = values.iter().map(Value::spell).collect();
    fields.join("\t")
}

#[derive(Clone, Copy, Debug, PartialEq, Eq)]
pub enum Place {
    Card,
    Chip,
    Handle,
    Staging,
}

/// A line's first word, and the fields behind it that are not read yet.
pub struct Line<'a> {
    pub word: &'a [u8],
    left: std::vec::IntoIter<&'a [u8]>,
}

impl<'a> Line<'a> {
    pub fn new(text: &'a [u8]) -> Line<'a> {
        let mut fields: Vec<&[u8]> = text.split(|byte| *byte == b'\t').collect();
        let word = fields.remove(0);
        if fields.last().map_or(false, |last| last.starts_with(b"#")) {
            fields.pop();
        }
        Line {
            word,
            left: fields.into_iter(),
        }
    }

    pub fn field(&mut self) -> Read<&'a [u8]> {
        self.left.next().map_or_else(refuse, Ok)
    }

    pub fn bytes(&mut self) -> Read<Vec<u8>> {
        bytes(self.field()?).map_or_else(refuse, Ok)
    }

    pub fn bytes_to(&mut self, most: usize) -> Read<Vec<u8>> {
        self.bytes().and_then(|bytes| {
            if bytes.len() <= most {
                Ok(bytes)
            } else {
                refuse()
            }
        })
    }

    /// A number up to `most`, which the type has room for.
    pub fn number<T: TryFrom<u64>>(&mut self, most: u64) -> Read<T> {
        let number = number(self.field()?, most);
        number
            .and_then(|n| n.try_into().ok())
            .map_or_else(refuse, Ok)
    }

    pub fn place(&mut self) -> Read<Place> {
        match self.field()? {
            b"card" => Ok(Place::Card),
            b"chip" => Ok(Place::Chip),
            b"handle" => Ok(Place::Handle),
            b"staging" => Ok(Place::Staging),
            _ => refuse(),
        }
    }

    /// Card or chip.
    pub fn medium(&mut self) -> Read<Place> {
        match self.place()? {
            medium @ (Place::Card | Place::Chip) => Ok(medium),
            _ => refuse(),
        }
    }

    /// Numbers of four bytes each, little-endian, or as many floats by their bits.
    pub fn fours(&mut self) -> Read<Vec<u32>> {
        let bytes = self.bytes()?;
        let fours = bytes.chunks_exact(4);
        if !fours.remainder().is_empty() {
            return refuse();
        }
        let number = |four: &[u8]| u32::from_le_bytes(four.try_into().expect("four bytes"));
        Ok(fours.map(number).collect())
    }

    pub fn attributes(&mut self) -> Read<Attributes> {
        match self.fours()?[..] {
            [lifetime, kind, usage, algorithm, enrollment] => Ok(Attributes {
                lifetime,
                kind,
                usage,
                algorithm,
                enrollment,
            }),
            _ => refuse(),
        }
    }

    /// The arguments are over, and what is expected follows.
    pub fn equals(&mut self) -> Read<()> {
        match self.field()? {
            b"=" => Ok(()),
            _ => refuse(),
        }
    }

    pub fn end(&self) -> Read<()> {
        if self.left.len() == 0 {
            Ok(())
        } else {
            refuse()
        }
    }

    /// What is expected, as it stands.
    pub fn expected(&self) -> &[&'a [u8]] {
        self.left.as_slice()
    }

    pub fn expects(&self, values: &[Value]) -> bool {
        let fields = self.expected();
        let mut pairs = values.iter().zip(fields);
        values.len() == fields.len() && pairs.all(|(value, field)| value.is(field))
    }
}

pub fn number(text: &[u8], most: u64) -> Option<u64> {
    if !text.iter().all(u8::is_ascii_digit) {
        return None;
    }
    let number: u64 = std::str::from_utf8(text).ok()?.parse().ok()?;
    (number <= most).then_some(number)
}

/// Pieces of hex or quoted text parted by one space, each perhaps with `*N` behind
/// it; `-` for none.
pub fn bytes(text: &[u8]) -> Option<Vec<u8>> {
    if text == b"-" {
        return Some(Vec::new());
    }
    let (mut all, mut rest) = (Vec::new(), text);
    loop {
        let (piece, behind) = piece(rest)?;
        let (times, behind) = times(behind)?;
        all.extend(piece.repeat(times));
        rest = match behind {
            [] => return Some(all),
            [b' ', next @ ..] => next,
            _ => return None,
        };
    }
}

fn piece(text: &[u8]) -> Option<(Vec<u8>, &[u8])> {
    if let [b'"', quoted @ ..] = text {
        let end = quoted.iter().position(|byte| *byte == b'"')?;
        return Some((quoted[..end].to_vec(), &quoted[end + 1..]));
    }
    let end = text.iter().position(|byte| !byte.is_ascii_hexdigit());
    let (digits, behind) = text.split_at(end.unwrap_or(text.len()));
    let digits = std::str::from_utf8(digits).ok()?;
    if digits.is_empty() || digits.len() % 2 == 1 {
        return None;
    }
    let pairs = (0..digits.len()).step_by(2);
    let bytes = pairs.map(|at| u8::from_str_radix(&digits[at..at + 2], 16));
    Some((bytes.collect::<Result<_, _>>().ok()?, behind))
}

fn times(text: &[u8]) -> Option<(usize, &[u8])> {
    let rest = match text {
        [b'*', rest @ ..] => rest,
        _ => return Some((1, text)),
    };
    let end = rest.iter().position(|byte| !byte.is_ascii_digit());
    let (digits, behind) = rest.split_at(end.unwrap_or(rest.len()));
    Some((number(digits, TIMES_MAX)? as usize, behind))
}

/// Bytes as a line writes them: hex, with longer runs of one byte as `00*584`.
pub fn spell(bytes: &[u8]) -> String {
    if bytes.is_empty() {
        return "-".into();
    }
    let (mut text, mut rest) = (String::new(), bytes);
    while let Some(first) = rest.first() {
        let run = rest.iter().take_while(|byte| *byte == first).count();
        if run > 4 {
            text = format!("{} {first:02x}*{run} ", text.trim_end());
            rest = &rest[run..];
        } else {
            text += &format!("{first:02x}");
            rest = &rest[1..];
        }
    }
    text.trim().into()
}

#[cfg(test)]
mod tests {
    use super::*;

    #[test]
    fn bytes_are_hex_or_text_and_repeated() {
        let good: [(&[u8], &[u8]); 9] = [
            (b"-", b""),
            (b"01fF", b"\x01\xff"),
            (b"01 00 ff", b"\x01\x00\xff"),
            (b"\"a b\"", b"a b"),
            (b"\"a*2\" 00*3 \"n\"*2", b"a*2\0\0\0nn"),
            (b"0102*2", b"\x01\x02\x01\x02"),
            (b"\"-\"", b"-"),
            (b"ee*0", b""),
            (b"\"#\"", b"#"),
        ];
        for (text, expected) in good {
            assert_eq!(
                bytes(text).as_deref(),
                Some(expected),
                "{}",
                text.escape_ascii()
            );
        }
    }

    #[test]
    fn other_bytes_are_unreadable() {
        let bad: [&[u8]; 17] = [
            b"",
            b" ",
            b"0",
            b"012",
            b"0g",
            b"00 ",
            b" 00",
            b"00  00",
            b"\"a",
            b"a\"",
            b"\"a\"b",
            b"00*",
            b"00*x",
            b"00*-1",
            b"00*65536",
            b"- 00",
            b"*3",
        ];
        for text in bad {
            assert_eq!(bytes(text), None, "{}", text.escape_ascii());
        }
    }

    #[test]
    fn what_is_spelled_is_read() {
        let cases: [&[u8]; 5] = [
            b"",
            b"\0",
            b"\x01\0\0\0\0\0\x02\x03",
            b"\0\0\0\0\0",
            b"aaaa\xee\xee\xee\xee\xee\xee",
        ];
        for case in cases {
            assert_eq!(
                bytes(spell(case).as_bytes()).as_deref(),
                Some(case),
                "{}",
                spell(case)
            );
        }
        assert_eq!(spell(b"\x01\0\0\0\0\0\x02\x03"), "01 00*5 0203");
    }

    #[test]
    fn numbers_are_decimal_and_bounded() {
        assert_eq!(number(b"0", 0), Some(0));
        assert_eq!(number(b"0012", 12), Some(12));
        assert_eq!(number(b"18446744073709551615", u64::MAX), Some(u64::MAX));
        let bad: [&[u8]; 7] = [
            b"",
            b"13",
            b"-1",
            b"+1",
            b"1 ",
            b"0x1",
            b"18446744073709551616",
        ];
        for text in bad {
            assert_eq!(number(text, 12), None, "{}", text.escape_ascii());
        }
    }

    #[test]
    fn a_line_has_fields_and_perhaps_a_note() {
        let mut line = Line::new(b"get\t\"#\"\t5\tee\t=\t0\t1\t07\t# a note");
        assert_eq!(line.word, b"get");
        assert_eq!(line.bytes().as_deref(), Ok(&b"#"[..]));
        assert_eq!(line.number::<usize>(4), refuse());
        assert_eq!(line.bytes_to(0), refuse());
        assert_eq!(line.equals(), Ok(()));
        let (one, seven) = (Value::Number(1), Value::Bytes(vec![7]));
        assert!(line.expects(&[Value::Number(0), one.clone(), seven.clone()]));
        assert!(!line.expects(&[Value::Number(0), one, seven.clone(), seven]));
        assert!(!line.expects(&[Value::Number(0)]));
        assert!(line.end().is_err());
        assert!(Line::new(b"reset\t# a note").end().is_ok());
    }
}
