//! Random nights for 02, No. 6, most of them with something wrong, and their comparison.
//!
//! Of the numbers, a night can answer 0, 1, 3, 4, 5, 6, 7, 9, 10 and 15 alone:
//!
//! - card and chip start empty and only calls write them, so there is no damage (2), and
//!   every record is in form (8) and of the night's one key (11);
//! - the chip has an entry exactly for each record with flag 8, with its CMAC: a set writes
//!   both, a remove clears both, and a set with other flags is refused by 9 or 7 before. So
//!   12 never comes, and 10 only for want of a place, as there are as many entries;
//! - every get is at offset 0 (14), and no other call can be asked for (13, and from 16 on).

use std::collections::BTreeMap;

use crate::answer::Why;
use crate::cast::{good_bytes, GOOD_FLAGS};
use crate::record::DATA_MAX;
use crate::replay::{self, Unreadable, Verdict, LINE_MAX};
use crate::rng::Rng;
use crate::show;
use crate::shrink::drop_parts;

const NAMES: [&[u8]; 13] = [
    b"a",
    b"A",
    b"b",
    b"ab",
    b"0",
    b"get",
    b"Cello 3",
    b"Fl\xc3\xb6te",
    b" ",
    b"\xff",
    b"\x80",
    b"~",
    b"4294967296",
];
const BAD_NAMES: [&[u8]; 8] = [
    b"", b"a\r", b"a\0", b"\0", b"\x7f", b"\x1fa", b"a\x01", b"\x0b",
];
/// Write once seldom: it freezes a name.
const USUAL_FLAGS: [u32; 14] = [0, 0, 2, 2, 4, 6, 6, 12, 12, 12, 14, 14, 5, 15];
const BAD_FLAGS: [u32; 9] = [8, 9, 10, 11, 16, 28, 1 << 16, 1 << 31, u32::MAX];
const ODD_IVS: [usize; 8] = [0, 1, 2, 7, 9, 10, 16, 24];
/// No numbers, or too big; with what is the right one's low 8, 32 or 64 bits.
const ODD_NUMBERS: [&[u8]; 27] = [
    b"",
    b"+0",
    b"-0",
    b"-1",
    b" 0",
    b"0 ",
    b"0\r",
    b"0\0",
    b"\x000",
    b"0x0",
    b"1e1",
    b"0.",
    b"0,0",
    b"1_0",
    b"a",
    b"f",
    b"/",
    b":",
    b"\xff",
    b"\xd9\xa0",
    b"4294967296",
    b"4294967302",
    b"42949672950",
    b"18446744073709551615",
    b"18446744073709551616",
    b"18446744073709551620",
    b"340282366920938463463374607431768211457",
];
const ODD_PLACES: [&[u8]; 9] = [
    b"0",
    b"00",
    b"65",
    b"066",
    b"100",
    b"256",
    b"257",
    b"4294967297",
    b"18446744073709551617",
];
const ODD_WORDS: [&[u8]; 24] = [
    b"",
    b"Set",
    b"SET",
    b"sets",
    b"se",
    b"s",
    b" set",
    b"set ",
    b"Get",
    b"GET",
    b"gets",
    b"ge",
    b"get\0",
    b"get\r",
    b"\xffget",
    b"Remove",
    b"removed",
    b"remov",
    b"removeall",
    b"delete",
    b"info",
    b"reset",
    b"walk",
    b"put",
];
/// Bytes that end, part or spoil something.
const TELLING: [u8; 24] = [
    0, 1, 9, 9, 9, 10, 10, 10, 13, 13, b' ', b'0', b'9', b'/', b':', b'a', b'f', b'F', b'g', b'G',
    b'@', 0x7f, 0x80, 0xff,
];
/// Nights of hardly a line.
const TINY: [&[u8]; 8] = [b"", b"", b"\n", b"\n\n", b"\t", b"\t\n", b"\r\n", b"\0"];
const EDGES: [usize; 4] = [1_099, 1_100, 1_101, 1_102];
const LONG: [usize; 12] = [
    1_098, 1_103, 1_150, 1_356, 2_199, 2_200, 2_201, 2_202, 3_303, 4_095, 4_096, 4_097,
];
const VERY_LONG: [usize; 6] = [65_534, 65_535, 65_536, 65_537, 66_637, 131_072];

/// A night of a seed, which depends on the seed and its number only.
pub fn night(seed: u64, index: u64) -> Vec<u8> {
    let mut teller = Teller::new(Rng::part(seed ^ 12 << 40, index));
    if teller.rng.below(200) == 0 {
        return teller.rng.pick(&TINY).to_vec();
    }
    let mut lines = vec![teller.first_line()];
    let count = match teller.rng.below(100) {
        0..=4 => teller.rng.below(3),
        5..=84 => 3 + teller.rng.below(12),
        _ => 10 + teller.rng.below(40),
    };
    lines.extend((0..count).map(|_| teller.line()));
    if teller.rng.percent(25) {
        for _ in 0..1 + teller.rng.below(2) {
            teller.change_lines(&mut lines);
        }
    }
    let mut night = lines.join(&b'\n');
    if teller.rng.percent(70) {
        night.push(b'\n');
    }
    if teller.rng.percent(25) {
        for _ in 0..1 + teller.rng.below(3) {
            teller.change_bytes(&mut night);
        }
    }
    night
}

/// A night that fills a card of 64 places, of at least that many bytes.
pub fn big_night(rng: Rng, size: usize) -> Vec<u8> {
    let mut teller = Teller::new(rng);
    for at in 0..80 {
        let flags = [0, 2, 6, 12, 14][at % 5];
        teller
            .names
            .push((format!("name {at}").into_bytes(), flags));
    }
    let mut night = teller.key();
    night.extend(b"\t64\n");
    while night.len() < size {
        night.extend(teller.line());
        night.push(b'\n');
        // Now and then a line that holds most of what a read brings.
        if teller.rng.below(1_000) == 0 {
            let length = teller.rng.pick(&VERY_LONG);
            night.extend(teller.stretched(length));
            night.push(b'\n');
        }
    }
    night
}

/// A night with lines of about a million bytes, in front, between or at the end.
pub fn endless_night(mut rng: Rng) -> Vec<u8> {
    let long = rng.below(3);
    let mut teller = Teller::new(rng);
    let mut lines = vec![teller.sound_first_line()];
    lines.extend((0..6).map(|_| teller.line()));
    let endless = teller.stretched(1_000_000);
    match long {
        0 => lines[0]
            .splice(33..33, vec![b'0'; 1_000_000])
            .for_each(drop),
        1 => lines.insert(3, endless),
        _ => lines.push(endless),
    }
    lines.join(&b'\n')
}

const FIRST: &[u8] = b"00112233445566778899aabbccddeeff\t2\n";

/// A night of which the third line, one of 1,100 bytes, begins so far before the end of a
/// read of that size.
pub fn at_read_end(size: usize, back: usize) -> Vec<u8> {
    let set = |zeros: usize| {
        let zeros = "0".repeat(zeros);
        format!("set\ta\t{zeros}6\t0001020304050607\t4142")
    };
    let rest = LINE_MAX - set(0).len();
    let lines = format!("{}\n{}\nget\ta\nremove\ta", set(rest), set(rest + 1));
    // Before it stands a single line, too long.
    let long = vec![b'x'; size - back - FIRST.len() - 1];
    [FIRST, &long, b"\n", lines.as_bytes()].concat()
}

/// A night of which a whole get's answer begins so far before the end of a write of that
/// size.
pub fn at_write_end(size: usize, back: usize) -> Vec<u8> {
    const SET: usize = 3;
    const GET: usize = 2 * DATA_MAX + 3;
    let before = size - back - SET;
    // The rest is of answers of three and of four bytes.
    let gets = (before - 8) / GET;
    let rest = before - gets * GET;
    let fours = rest % 3;
    let threes = (rest - 4 * fours) / 3;
    let data = "5a".repeat(DATA_MAX);
    let mut night = FIRST.to_vec();
    night.extend(format!("set\ta\t0\t0001020304050607\t{data}\n").bytes());
    night.extend(b"get\ta\n".repeat(gets));
    night.extend(b"get\tb\n".repeat(threes));
    night.extend(b"\n".repeat(fours));
    night.extend(b"get\ta\n".repeat(2));
    night
}

/// Where a night that comes in pieces is cut: in order, between 0 and its length.
pub fn cuts(night: &[u8], rng: &mut Rng) -> Vec<usize> {
    // A thousand pieces at most, as each waits for a reader.
    const MOST: usize = 1_000;
    let least = night.len() / MOST + 1;
    let newlines = (0..night.len()).filter(|at| night[*at] == b'\n');
    let few = newlines.clone().count() < MOST / 2;
    match rng.below(6) {
        0 if least == 1 => (1..night.len()).collect(),
        1 if few => newlines.collect(),
        2 if few => newlines.map(|at| at + 1).collect(),
        3 if few => newlines.flat_map(|at| [at, at + 1]).collect(),
        kind => {
            let most = if kind == 4 { 8 } else { 200 };
            let mut cuts = Vec::new();
            let mut at = 0;
            loop {
                at += least + rng.below(most);
                if at >= night.len() {
                    return cuts;
                }
                cuts.push(at);
            }
        }
    }
}

struct Teller {
    rng: Rng,
    /// With the flags that each is usually set with.
    names: Vec<(Vec<u8>, u32)>,
    /// How many of a hundred lines are odd.
    odd: usize,
}

impl Teller {
    fn new(mut rng: Rng) -> Teller {
        let count = 2 + rng.below(4);
        let names = (0..count).map(|_| {
            let name = match rng.below(12) {
                0 => good_bytes(&mut rng, 64),
                1 => good_bytes(&mut rng, 63),
                2 => {
                    let length = 1 + rng.below(32);
                    good_bytes(&mut rng, length)
                }
                _ => rng.pick(&NAMES).to_vec(),
            };
            (name, rng.pick(&USUAL_FLAGS))
        });
        let names = names.collect();
        let odd = rng.pick(&[0, 0, 3, 10, 30]);
        Teller { rng, names, odd }
    }

    fn hex(&mut self, bytes: &[u8]) -> Vec<u8> {
        let lower = show::hex(bytes).into_bytes();
        match self.rng.below(10) {
            0..=4 => lower,
            5..=6 => lower.to_ascii_uppercase(),
            _ => {
                let mut mixed = lower;
                for digit in &mut mixed {
                    if self.rng.percent(50) {
                        digit.make_ascii_uppercase();
                    }
                }
                mixed
            }
        }
    }

    fn key(&mut self) -> Vec<u8> {
        let key = self.rng.array::<16>();
        self.hex(&key)
    }

    fn number(&mut self, number: u32) -> Vec<u8> {
        let zeros = match self.rng.below(100) {
            0..=69 => 0,
            70..=96 => 1 + self.rng.below(25),
            _ => self
                .rng
                .pick(&[100, 253, 254, 255, 256, 1_000, 1_030, 1_100]),
        };
        let mut digits = vec![b'0'; zeros];
        digits.extend(number.to_string().bytes());
        digits
    }

    fn places(&mut self) -> u32 {
        match self.rng.below(200) {
            0 => 64,
            1 => 63,
            2..=9 => 5 + self.rng.below(12) as u32,
            _ => 1 + self.rng.below(4) as u32,
        }
    }

    fn sound_first_line(&mut self) -> Vec<u8> {
        let places = self.places();
        let mut line = self.key();
        line.push(b'\t');
        line.extend(places.to_string().bytes());
        line
    }

    fn first_line(&mut self) -> Vec<u8> {
        if self.rng.percent(90) {
            return self.sound_first_line();
        }
        let (key, places) = (self.key(), self.places());
        let places = self.number(places);
        let parts: [Vec<u8>; 2] = match self.rng.below(15) {
            0 => [key, self.rng.pick(&ODD_PLACES).to_vec()],
            1 => [key, self.rng.pick(&ODD_NUMBERS).to_vec()],
            2..=3 => {
                let length = self.rng.pick(&[0, 1, 2, 30, 31, 33, 34, 62, 64]);
                let other = self.rng.bytes(32);
                [show::hex(&other).into_bytes()[..length].to_vec(), places]
            }
            4 => [self.spoiled_hex(key), places],
            5..=8 => {
                // Long in either field, right but for the length.
                let length = self.long_length();
                let zeros = vec![b'0'; length - 34];
                if self.rng.percent(70) {
                    [key, [&zeros[..], b"1"].concat()]
                } else {
                    [[&zeros[..], &key].concat(), b"1".to_vec()]
                }
            }
            9 => return key,
            10 => return self.spoiled_tabs(&[&key, &places]),
            11 => return self.line(),
            12 => return Vec::new(),
            _ => [key, places],
        };
        parts.join(&b'\t')
    }

    fn line(&mut self) -> Vec<u8> {
        if self.rng.percent(self.odd) {
            self.odd_line()
        } else {
            self.sound_line()
        }
    }

    fn name(&mut self) -> (Vec<u8>, u32) {
        let (name, flags) = self.rng.pick(&self.names);
        match self.rng.below(100) {
            0..=2 => (self.rng.pick(&BAD_NAMES).to_vec(), flags),
            3 => {
                let length = self.rng.pick(&[65, 66, 128, 255, 256, 257, 320, 1_000]);
                (good_bytes(&mut self.rng, length), flags)
            }
            4..=6 => (self.rng.pick(&NAMES).to_vec(), flags),
            _ => (name, flags),
        }
    }

    fn data(&mut self) -> Vec<u8> {
        let length = match self.rng.below(100) {
            0..=9 => 0,
            10..=59 => 1 + self.rng.below(6),
            60..=84 => self.rng.pick(&[14, 15, 16, 17, 31, 32, 33, 48]),
            85..=93 => self.rng.below(200),
            94..=95 => 479,
            96..=97 => 480,
            98 => 481,
            _ => 482 + self.rng.below(50),
        };
        self.rng.bytes(length)
    }

    /// The fields of a set, with no fault but those that the store finds.
    fn set(&mut self) -> Vec<Vec<u8>> {
        let (name, usual) = self.name();
        let flags = match self.rng.below(100) {
            0..=79 => usual,
            80..=84 => usual | 1,
            85..=94 => self.rng.pick(&GOOD_FLAGS),
            _ => self.rng.pick(&BAD_FLAGS),
        };
        let length = match self.rng.below(100) {
            0..=4 => self.rng.pick(&ODD_IVS),
            _ => 8,
        };
        let iv = self.rng.bytes(length);
        let data = self.data();
        let flags = self.number(flags);
        vec![b"set".to_vec(), name, flags, self.hex(&iv), self.hex(&data)]
    }

    fn fields(&mut self) -> Vec<Vec<u8>> {
        let word: &[u8] = match self.rng.below(100) {
            0..=44 => return self.set(),
            45..=79 => b"get",
            _ => b"remove",
        };
        vec![word.to_vec(), self.name().0]
    }

    fn sound_line(&mut self) -> Vec<u8> {
        self.fields().join(&b'\t')
    }

    fn odd_line(&mut self) -> Vec<u8> {
        let mut fields = self.fields();
        let last = fields.len() - 1;
        match self.rng.below(100) {
            0..=9 => fields[0] = self.rng.pick(&ODD_WORDS).to_vec(),
            10..=24 => {
                fields = self.set();
                fields[2] = self.rng.pick(&ODD_NUMBERS).to_vec();
            }
            25..=39 => {
                fields = self.set();
                let at = 3 + self.rng.below(2);
                fields[at] = self.spoiled_hex(fields[at].clone());
            }
            40..=49 => {
                let at = self.rng.below(fields.len());
                fields.remove(at);
            }
            50..=59 => {
                let at = self.rng.below(fields.len() + 1);
                let more = self.rng.pick(&[&b""[..], b"a", b"0", b"00"]);
                fields.insert(at, more.to_vec());
            }
            60..=69 => {
                let fields: Vec<&[u8]> = fields.iter().map(|field| &field[..]).collect();
                return self.spoiled_tabs(&fields);
            }
            70..=74 => {
                let at = self.rng.below(fields.len());
                fields.swap(at, last);
            }
            75..=79 => fields[last].push(self.rng.pick(&[0, 13, 0xff, b' '])),
            80..=84 => return Vec::new(),
            _ => {
                let length = self.long_length();
                return self.stretched(length);
            }
        }
        fields.join(&b'\t')
    }

    fn long_length(&mut self) -> usize {
        match self.rng.below(200) {
            0..=159 => self.rng.pick(&EDGES),
            160..=198 => self.rng.pick(&LONG),
            _ => self.rng.pick(&VERY_LONG),
        }
    }

    /// A line of just that many bytes, by one long field, else as right as it can be.
    fn stretched(&mut self, length: usize) -> Vec<u8> {
        let (name, flags) = self.rng.pick(&self.names);
        let flags = flags.to_string();
        let mut fields: Vec<Vec<u8>> = match self.rng.below(10) {
            0 => vec![b"get".to_vec(), name],
            1 => vec![b"remove".to_vec(), name],
            _ => {
                let data = self.rng.bytes(4);
                let (iv, data) = (self.hex(&[7; 8]), self.hex(&data));
                vec![b"set".to_vec(), name, flags.into_bytes(), iv, data]
            }
        };
        let missing = length - fields.join(&b'\t').len();
        let at = self.rng.below(fields.len());
        match at {
            // A number of right value answers most with its line's length alone.
            _ if fields.len() == 5 && self.rng.percent(60) => {
                fields[2].splice(0..0, vec![b'0'; missing]).for_each(drop);
            }
            3 | 4 => {
                fields[at].extend(vec![b'0'; missing - missing % 2]);
                fields[2]
                    .splice(0..0, vec![b'0'; missing % 2])
                    .for_each(drop);
            }
            1 => {
                let more = good_bytes(&mut self.rng, missing);
                fields[1].extend(more);
            }
            _ => fields[at].extend(vec![b'0'; missing]),
        }
        let line = fields.join(&b'\t');
        assert_eq!(line.len(), length);
        line
    }

    fn spoiled_hex(&mut self, mut hex: Vec<u8>) -> Vec<u8> {
        match self.rng.below(4) {
            0 if !hex.is_empty() => {
                let at = self.rng.below(hex.len());
                hex.remove(at);
            }
            1 => {
                let at = self.rng.below(hex.len() + 1);
                hex.insert(at, b'0');
            }
            _ => {
                let bad = self
                    .rng
                    .pick(&[b'g', b'G', b'/', b':', b'@', b'`', b' ', 0, 13, 0xff]);
                if hex.is_empty() {
                    return vec![b'0', bad];
                }
                let at = self.rng.below(hex.len());
                hex[at] = bad;
            }
        }
        hex
    }

    /// One tab more, or one less, or something else in its place.
    fn spoiled_tabs(&mut self, fields: &[&[u8]]) -> Vec<u8> {
        let mut line = fields.join(&b'\t');
        let tabs: Vec<usize> = (0..line.len()).filter(|at| line[*at] == b'\t').collect();
        let at = self.rng.pick(&tabs);
        match self.rng.below(5) {
            0 => line.insert(0, b'\t'),
            1 => line.push(b'\t'),
            2 => line.insert(at, b'\t'),
            3 => line.splice(at..=at, []).for_each(drop),
            _ => line[at] = self.rng.pick(&[b' ', b',', 0x0b, 0, 0xff]),
        }
        line
    }

    fn change_lines(&mut self, lines: &mut Vec<Vec<u8>>) {
        let at = self.rng.below(lines.len());
        let other = self.rng.below(lines.len());
        match self.rng.below(8) {
            0 => lines.insert(at, lines[other].clone()),
            1 => lines.swap(at, other),
            2 => {
                let length = self.rng.below(lines[at].len() + 1);
                lines[at].truncate(length);
            }
            3 => lines.insert(at, Vec::new()),
            4 => lines.push(Vec::new()),
            5 => lines[at].push(b'\r'),
            6 => lines.iter_mut().for_each(|line| line.push(b'\r')),
            _ => lines[at].make_ascii_uppercase(),
        }
    }

    fn change_bytes(&mut self, night: &mut Vec<u8>) {
        if night.is_empty() {
            return night.push(self.rng.pick(&TELLING));
        }
        let at = self.rng.below(night.len());
        match self.rng.below(10) {
            0 => night[at] ^= 1 << self.rng.below(8),
            1 => night[at] = self.rng.pick(&TELLING),
            2..=3 => night.insert(at, self.rng.pick(&TELLING)),
            4 => {
                night.remove(at);
            }
            5 => night.truncate(at),
            6 => night.drain(..at).for_each(drop),
            7 => night.push(self.rng.pick(&TELLING)),
            8 => {
                let end = night.len().min(at + self.rng.below(40));
                let again = night[at..end].to_vec();
                night.splice(at..at, again).for_each(drop);
            }
            _ => {
                // A tab or newline is dropped, or one is put in another's place.
                let parts = |byte: &u8| matches!(byte, b'\t' | b'\n');
                if let Some(further) = night[at..].iter().position(parts) {
                    let at = at + further;
                    match self.rng.below(3) {
                        0 => night.splice(at..=at, []).for_each(drop),
                        1 => night[at] = b'\n',
                        _ => night[at] = b'\t',
                    }
                }
            }
        }
    }
}

/// What a player printed, or why it printed nothing that counts.
pub type Printed = Result<Vec<u8>, String>;
/// The product's player, or one in its place.
pub type Plays<'a> = &'a dyn Fn(&[u8]) -> Printed;

/// What became of the lines of many nights.
#[derive(Default)]
pub struct Tally {
    verdicts: BTreeMap<Verdict, u64>,
    /// Lines of the lengths around the longest.
    lengths: BTreeMap<usize, u64>,
    pub lines: u64,
}

impl Tally {
    fn count(&mut self, night: &[u8], replies: &[replay::Reply]) {
        for reply in replies {
            self.lines += 1;
            *self.verdicts.entry(reply.verdict).or_default() += 1;
        }
        for line in replay::lines(night) {
            if EDGES.contains(&line.len()) {
                *self.lengths.entry(line.len()).or_default() += 1;
            }
        }
    }

    pub fn add(&mut self, other: &Tally) {
        for (verdict, more) in &other.verdicts {
            *self.verdicts.entry(*verdict).or_default() += more;
        }
        for (length, more) in &other.lengths {
            *self.lengths.entry(*length).or_default() += more;
        }
        self.lines += other.lines;
    }

    /// How often each number was printed, and for what.
    pub fn table(&self) -> String {
        let mut numbers: BTreeMap<u32, u64> = BTreeMap::new();
        for (verdict, count) in &self.verdicts {
            *numbers.entry(verdict.number()).or_default() += count;
        }
        let numbers = numbers.iter();
        let numbers = numbers.map(|(number, count)| format!("{count:>12} of {number}"));
        let verdicts = self.verdicts.iter();
        let verdicts = verdicts
            .map(|(verdict, count)| format!("{count:>12} {:>2} {verdict}", verdict.number()));
        let lengths = self.lengths.iter();
        let lengths = lengths.map(|(length, count)| format!("{count:>12} lines of {length} bytes"));
        let rows = numbers.chain(verdicts).chain(lengths);
        rows.collect::<Vec<String>>().join("\n")
    }

    /// What never came, or can't come and did.
    pub fn gaps(&self) -> Vec<String> {
        let due = due();
        let never = due.iter().filter(|due| !self.verdicts.contains_key(due));
        let strange = self.verdicts.keys().filter(|got| !due.contains(got));
        let lengths = EDGES.iter();
        let lengths = lengths.filter(|length| !self.lengths.contains_key(length));
        let verdicts = never.chain(strange).map(ToString::to_string);
        verdicts
            .chain(lengths.map(|length| format!("a line of {length} bytes")))
            .collect()
    }
}

/// All that can become of a line.
fn due() -> Vec<Verdict> {
    use Unreadable::*;
    use Why::*;
    let set = [
        IvLength,
        BadName,
        BadFlags,
        DataTooLong,
        OldWriteOnce,
        NewWriteOnce,
        FlagsDiffer,
        NoPlace,
    ];
    let get = [BadName, NotFound];
    let remove = [BadName, NotFound, OldWriteOnce];
    let of = |kind: usize, refused: &[Why]| {
        let refused = refused.iter().map(|why| Some(*why));
        let all = std::iter::once(None).chain(refused);
        all.map(|why| Verdict::Called(kind, why))
            .collect::<Vec<Verdict>>()
    };
    let either = [
        LineTooLong,
        FieldCount,
        NoDigit,
        NotADigit,
        NumberTooBig,
        OddHex,
        NotHex,
    ];
    let later = either.iter().chain(&[UnknownWord]);
    let first = either.iter().chain(&[NoLine, KeyLength, Places]);
    let called = [of(0, &set), of(1, &get), of(3, &remove)].concat();
    called
        .into_iter()
        .chain(later.map(|why| Verdict::Unread(*why)))
        .chain(first.map(|why| Verdict::NotBegun(*why)))
        .collect()
}

/// How a player differs from what has to be printed.
pub fn difference(night: &[u8], expected: &[u8], plays: Plays) -> Option<String> {
    let got = match plays(night) {
        Ok(got) => got,
        Err(why) => return Some(why),
    };
    if got == expected {
        return None;
    }
    let same = expected.iter().zip(&got).take_while(|(a, b)| a == b);
    let at = same.count();
    let line = expected[..at].iter().filter(|byte| **byte == b'\n').count();
    Some(format!(
        "printed line {} differs: expected {}, got {}",
        line + 1,
        shown(line_of(expected, line)),
        shown(line_of(&got, line))
    ))
}

/// A printed line with its newline; nothing where there is none.
fn line_of(printed: &[u8], line: usize) -> &[u8] {
    let mut lines = printed.split_inclusive(|byte| *byte == b'\n');
    lines.nth(line).unwrap_or(&[])
}

/// Bytes to read, runs of one byte counted, and the middle of very many left out.
fn shown(bytes: &[u8]) -> String {
    const RUN: usize = 24;
    const ENDS: usize = 2_000;
    let mut parts: Vec<String> = vec![String::new()];
    let mut at = 0;
    while at < bytes.len() {
        let run = bytes[at..].iter().take_while(|byte| **byte == bytes[at]);
        let run = run.count();
        let one = bytes[at..=at].escape_ascii();
        if run >= RUN {
            parts.push(format!("\"{one}\" x {run}"));
            parts.push(String::new());
        } else if let Some(part) = parts.last_mut() {
            *part += &one.to_string().repeat(run);
        }
        at += run;
    }
    let quoted = |(at, part): (usize, &String)| match at % 2 {
        0 => format!("\"{part}\""),
        _ => part.clone(),
    };
    let parts: Vec<String> = parts.iter().enumerate().map(quoted).collect();
    let text = parts.join(" ");
    if text.len() <= 2 * ENDS {
        return text;
    }
    // All of it is ASCII.
    let (front, back) = (&text[..ENDS], &text[text.len() - ENDS..]);
    format!("{front} ... {back} ({} bytes)", bytes.len())
}

/// Plays the night; the difference, if there is one.
pub fn check(night: &[u8], plays: Plays, tally: &mut Tally) -> Option<String> {
    let replies = replay::play(night);
    tally.count(night, &replies);
    difference(night, &replay::print(&replies), plays)
}

/// The shortest night found that still differs, told.
pub fn report(night: &[u8], plays: Plays) -> String {
    let differs = |night: &[u8]| difference(night, &replay::replay(night), plays).is_some();
    let with_newlines = |lines: &[Vec<u8>]| lines.concat();
    let lines = night.split_inclusive(|byte| *byte == b'\n');
    let lines = lines.map(<[u8]>::to_vec).collect();
    let lines = drop_parts(lines, &|lines| differs(&with_newlines(lines)));
    let mut short = with_newlines(&lines);
    // Byte by byte only where that is soon done.
    if short.len() <= 8 * LINE_MAX {
        short = drop_parts(short, &|bytes| differs(bytes));
    }
    let different = difference(&short, &replay::replay(&short), plays);
    let different = different.unwrap_or_else(|| "it differs no more".into());
    format!("    {}\n    {different}\n", shown(&short))
}

#[cfg(test)]
mod tests {
    use super::*;

    #[test]
    fn nights_reach_all_that_can_become_of_a_line() {
        let mut tally = Tally::default();
        for index in 0..5_000 {
            let night = night(1, index);
            let same = check(&night, &|night| Ok(replay::replay(night)), &mut tally);
            assert!(same.is_none());
        }
        assert_eq!(tally.gaps(), Vec::<String>::new(), "\n{}", tally.table());
    }

    #[test]
    fn big_and_endless_nights_are_what_they_are_called() {
        let night = big_night(Rng::new(1), 1 << 20);
        assert!(night.len() >= 1 << 20);
        let replies = replay::play(&night);
        assert!(replay::print(&replies).len() > 1 << 16);
        let verdict = |verdict| replies.iter().any(|reply| reply.verdict == verdict);
        assert!(verdict(Verdict::Called(0, Some(Why::NoPlace))));
        assert!(verdict(Verdict::Unread(Unreadable::LineTooLong)));
        for index in 0..9 {
            let night = endless_night(Rng::part(1, index));
            let longest = replay::lines(&night).into_iter().map(<[u8]>::len).max();
            assert!(longest >= Some(1_000_000));
        }
    }

    #[test]
    fn reads_and_writes_end_where_they_should() {
        for (size, back) in [(4_096, 0), (4_096, 1_104), (65_536, 7)] {
            let night = at_read_end(size, back);
            assert!(
                night[size - back..].starts_with(b"set\ta\t00") && night[size - back - 1] == 10
            );
            assert_eq!(replay::replay(&night), b"15\t\n0\t\n15\t\n0\t4142\n0\t\n");
        }
        for size in [4_096, 65_536] {
            for back in 0..970 {
                let printed = replay::replay(&at_write_end(size, back));
                let get = &printed[size - back..];
                assert!(get.len() == 2 * 963 && get.starts_with(b"0\t5a5a"));
                assert_eq!(printed[size - back - 1], b'\n');
            }
        }
    }

    #[test]
    fn cuts_stand_in_order_and_anywhere() {
        let mut seen = [false; 3];
        for index in 0..300 {
            let night = night(1, index);
            let cuts = cuts(&night, &mut Rng::new(index));
            assert!(cuts.windows(2).all(|pair| pair[0] <= pair[1]));
            assert!(cuts.len() <= 1_000 && cuts.last().map_or(true, |last| *last <= night.len()));
            for cut in cuts {
                seen[0] |= night.get(cut) == Some(&b'\n');
                seen[1] |= cut > 0 && night[cut - 1] == b'\n';
                seen[2] |= night.get(cut) == Some(&b'\t');
            }
        }
        assert_eq!(seen, [true; 3]);
    }

    #[test]
    fn bytes_are_shown_in_short() {
        assert_eq!(shown(b"a\t\xff"), r#""a\t\xff""#);
        let zeros = [&b"a"[..], &[b'0'; 30], b"\n"].concat();
        assert_eq!(shown(&zeros), r#""a" "0" x 30 "\n""#);
        let long = shown(&b"ab".repeat(5_000));
        assert!(long.len() < 4_100 && long.ends_with("ab\" (10000 bytes)"));
    }

    #[test]
    fn a_wrong_player_is_caught_and_its_night_shortened() {
        // Takes a name with CR for one without.
        let wrong = |night: &[u8]| {
            let text: Vec<u8> = night.iter().copied().filter(|byte| *byte != 13).collect();
            Ok(replay::replay(&text))
        };
        let told = (0..2_000).find_map(|index| {
            let night = night(2, index);
            check(&night, &wrong, &mut Tally::default())?;
            Some(report(&night, &wrong))
        });
        let told = told.expect("a difference");
        assert!(told.contains("printed line 1 differs"), "{told}");
        assert!(told.matches("\\n").count() <= 4, "{told}");
    }

    #[test]
    fn a_player_that_fails_is_told() {
        let wrong = |_: &[u8]| Err("it answered 2".into());
        let told = check(b"", &wrong, &mut Tally::default());
        assert_eq!(told, Some("it answered 2".into()));
        assert!(report(b"a\nb\n", &wrong).contains("it answered 2"));
    }
}
