//! Wrong builds of 02, No. 6 that look right. The edges tell each of them, and so do the
//! first nights of a seed.
//!
//! No answer of a night tells its key or an IV: what one line stores another reads back
//! with the same. A build that leaves them out prints the right lines, so none is here.

use crate::area::{ENTRY, PLACE};
use crate::calls::Call;
use crate::replay::{self, Player, Reply, Unreadable, Verdict, LINE_MAX};
use crate::{night_edges, nights};

type Line = Vec<u8>;

/// The one step that a build does in another way.
enum Wrong {
    /// Parts the night into lines.
    Lines(fn(&[u8]) -> Vec<Line>),
    /// Sees each line changed.
    Line(fn(&mut Line)),
    /// Begins with the first line, or its key or number of places, changed.
    First(fn(&mut Line)),
    Key(fn(&mut Line)),
    Places(fn(&mut Line)),
    /// Makes card and chip.
    Start(fn(&mut Player)),
    /// Answers a bad first line.
    NotBegun(fn(Unreadable, &[Line]) -> Vec<Reply>),
    /// Reads lines up to another length.
    Longest(usize),
    /// Reads changed fields: all, the name, or of a set its flags, IV, data or both.
    Fields(fn(&mut Vec<Line>)),
    Name(fn(&mut Line)),
    Flags(fn(&mut Line)),
    Iv(fn(&mut Line)),
    Data(fn(&mut Line)),
    Hex(fn(&mut Line)),
    /// Can't read what asks for this.
    Refuses(fn(&Call) -> bool),
    /// Answers a call.
    Answers(fn(&mut Player, &Call) -> Reply),
    /// Prints something else for a call that was answered.
    Replies(fn(&Call, &mut Reply)),
    Prints(fn(Vec<u8>) -> Vec<u8>),
    /// Prints each line without its newline changed.
    PrintsLine(fn(&str) -> String),
}

use Wrong::*;

impl Wrong {
    fn replay(&self, night: &[u8]) -> Vec<u8> {
        let lines = match self {
            Lines(parted) => parted(night),
            _ => lines(night),
        };
        let lines: Vec<Line> = lines.into_iter().map(|line| self.seen(line)).collect();
        let first = lines.first().ok_or(Unreadable::NoLine);
        let replies: Vec<Reply> = match (first.and_then(|line| self.begin(line)), self) {
            (Ok(mut player), _) => {
                let later = lines[1..].iter();
                later.map(|line| self.line(&mut player, line)).collect()
            }
            (Err(why), NotBegun(replies)) => replies(why, &lines),
            (Err(why), _) => vec![not_begun(why)],
        };
        let printed = replay::print(&replies);
        match self {
            Prints(change) => change(printed),
            PrintsLine(change) => {
                let text = String::from_utf8(printed).expect("digits and tabs");
                let lines = text.lines().map(|line| change(line) + "\n");
                lines.collect::<String>().into_bytes()
            }
            _ => printed,
        }
    }

    fn seen(&self, mut line: Line) -> Line {
        if let Line(change) = self {
            change(&mut line);
        }
        line
    }

    fn begin(&self, line: &[u8]) -> Result<Player, Unreadable> {
        let mut line = line.to_vec();
        if let First(change) = self {
            change(&mut line);
        }
        let mut fields = parted(&line);
        match (self, &mut fields[..]) {
            (Key(change), [key, _]) => change(key),
            (Places(change), [_, places]) => change(places),
            _ => {}
        }
        // No change makes a long line short.
        if line.len() > LINE_MAX {
            return Player::begin(&line);
        }
        let mut player = Player::begin(&fields.join(&b'\t'))?;
        if let Start(change) = self {
            change(&mut player);
        }
        Ok(player)
    }

    fn line(&self, player: &mut Player, line: &[u8]) -> Reply {
        let call = match self.read(player, line) {
            Ok(call) => call,
            Err(why) => return Reply::without_bytes(Verdict::Unread(why)),
        };
        match self {
            Answers(answer) => answer(player, &call),
            Replies(change) => {
                let mut reply = player.answer(&call);
                change(&call, &mut reply);
                reply
            }
            _ => player.answer(&call),
        }
    }

    fn read(&self, player: &Player, line: &[u8]) -> Result<Call, Unreadable> {
        let longest = match self {
            Longest(longest) => *longest,
            _ => LINE_MAX,
        };
        if line.len() > longest {
            return Err(Unreadable::LineTooLong);
        }
        let mut fields = parted(line);
        if let Fields(change) = self {
            change(&mut fields);
        }
        match (self, &mut fields[..]) {
            (Name(change), [_, name, ..]) => change(name),
            (Flags(change), [_, _, flags, _, _]) => change(flags),
            (Iv(change), [_, _, _, iv, _]) => change(iv),
            (Data(change), [_, _, _, _, data]) => change(data),
            (Hex(change), [_, _, _, iv, data]) => {
                change(iv);
                change(data);
            }
            (_, []) => return Err(Unreadable::UnknownWord),
            _ => {}
        }
        let fields: Vec<&[u8]> = fields.iter().map(|field| &field[..]).collect();
        let call = player.asked(&fields)?;
        match self {
            Refuses(refused) if refused(&call) => Err(Unreadable::FieldCount),
            _ => Ok(call),
        }
    }
}

fn not_begun(why: Unreadable) -> Reply {
    Reply::without_bytes(Verdict::NotBegun(why))
}

fn lines(night: &[u8]) -> Vec<Line> {
    let lines = replay::lines(night).into_iter();
    lines.map(<[u8]>::to_vec).collect()
}

fn parted(line: &[u8]) -> Vec<Line> {
    let fields = line.split(|byte| *byte == b'\t');
    fields.map(<[u8]>::to_vec).collect()
}

/// The lines, without some of them.
fn without(night: &[u8], dropped: fn(&[u8]) -> bool) -> Vec<Line> {
    let mut lines = lines(night);
    lines.retain(|line| !dropped(line));
    lines
}

fn long(line: &[u8]) -> bool {
    line.len() > LINE_MAX
}

/// Each line in pieces of that size at most.
fn in_pieces(night: &[u8], size: usize) -> Vec<Line> {
    let pieces = |line: Line| match line.is_empty() {
        true => vec![line],
        false => line.chunks(size).map(<[u8]>::to_vec).collect(),
    };
    lines(night).into_iter().flat_map(pieces).collect()
}

fn replace(bytes: &mut Line, from: u8, to: u8) {
    for byte in bytes.iter_mut().filter(|byte| **byte == from) {
        *byte = to;
    }
}

/// Drops what stands from the first such byte on.
fn end_at(field: &mut Line, end: fn(u8) -> bool) {
    let at = field.iter().position(|byte| end(*byte));
    field.truncate(at.unwrap_or(field.len()));
}

fn trim(field: &mut Line) {
    let text = String::from_utf8_lossy(field);
    *field = text.trim().as_bytes().to_vec();
}

/// Makes a field unreadable.
fn spoil_if(spoiled: bool, field: &mut Line) {
    if spoiled {
        *field = b"?".to_vec();
    }
}

fn digits(field: &[u8]) -> bool {
    !field.is_empty() && field.iter().all(u8::is_ascii_digit)
}

/// Zeros in front.
fn zeros(field: &[u8]) -> usize {
    let zeros = field.iter().take_while(|digit| **digit == b'0');
    zeros.count().min(field.len().saturating_sub(1))
}

/// The number's value in that many bits, where it is one.
fn wrap(field: &mut Line, bits: u32) {
    if digits(field) {
        let add = |value: u128, digit: &u8| (value * 10 + u128::from(digit - b'0')) % (1 << bits);
        let value = field.iter().fold(0, add);
        *field = value.to_string().into_bytes();
    }
}

/// Puts another number in place of one.
fn swap_number(field: &mut Line, number: &[u8], other: &[u8]) {
    if digits(field) && field[zeros(field)..] == *number {
        *field = other.to_vec();
    }
}

/// As many fields as the word should have.
fn right_count(fields: &[Line]) -> usize {
    match fields[0] == b"set" {
        true => 5,
        false => 2,
    }
}

/// Another word, where a right one is like it.
fn word_like(fields: &mut [Line], like: fn(&[u8], &[u8]) -> bool) {
    for word in [&b"set"[..], b"get", b"remove"] {
        if like(&fields[0], word) {
            fields[0] = word.to_vec();
        }
    }
}

/// A key of so many digits is made one of 32.
fn take_key(key: &mut Line, digits: usize) {
    if key.len() == digits {
        key.resize(32, b'0');
    }
}

fn name_is(call: &Call, like: fn(&[u8]) -> bool) -> bool {
    call.name().map_or(false, |name| like(&name))
}

/// Takes the record of the call's name out.
fn take_out(player: &mut Player, call: &Call) {
    let name = call.name().expect("all calls of a night have one");
    player.answer(&Call::Remove { name });
}

const IMPOSTORS: &[(&str, Wrong)] = &[
    (
        "a final newline makes one more line",
        Lines(|night| {
            night
                .split(|byte| *byte == b'\n')
                .map(<[u8]>::to_vec)
                .collect()
        }),
    ),
    (
        "a last line without newline is lost",
        Lines(|night| {
            let mut lines = lines(night);
            if !night.ends_with(b"\n") {
                lines.pop();
            }
            lines
        }),
    ),
    (
        "empty lines are skipped",
        Lines(|night| without(night, <[u8]>::is_empty)),
    ),
    (
        "an empty line ends the night",
        Lines(|night| {
            lines(night)
                .into_iter()
                .take_while(|line| !line.is_empty())
                .collect()
        }),
    ),
    (
        "CR before a newline is dropped",
        Line(|line| {
            if line.ends_with(b"\r") {
                line.pop();
            }
        }),
    ),
    (
        "CR ends a line",
        Lines(|night| {
            let mut night = night.to_vec();
            replace(&mut night, b'\r', b'\n');
            lines(&night)
        }),
    ),
    (
        "NUL ends what is seen of a line",
        Line(|line| end_at(line, |byte| byte == 0)),
    ),
    (
        "0xff ends the night",
        Lines(|night| {
            let mut night = night.to_vec();
            end_at(&mut night, |byte| byte == 0xff);
            lines(&night)
        }),
    ),
    (
        "the rest of a long line is one more",
        Lines(|night| in_pieces(night, LINE_MAX + 1)),
    ),
    (
        "a long line is parted",
        Lines(|night| in_pieces(night, LINE_MAX)),
    ),
    ("a long line is cut", Line(|line| line.truncate(LINE_MAX))),
    (
        "long lines are not answered",
        Lines(|night| without(night, long)),
    ),
    (
        "a long line ends the night",
        Lines(|night| {
            let mut lines = lines(night);
            let at = lines.iter().position(|line| long(line));
            lines.truncate(at.map_or(lines.len(), |at| at + 1));
            lines
        }),
    ),
    (
        "the line behind a long one is lost",
        Lines(|night| {
            let lines = lines(night);
            let behind = |at: usize| at > 0 && long(&lines[at - 1]);
            (0..lines.len())
                .filter(|at| !behind(*at))
                .map(|at| lines[at].clone())
                .collect()
        }),
    ),
    (
        "the newline counts",
        Lines(|night| {
            let lines = night.split_inclusive(|byte| *byte == b'\n');
            lines
                .map(|line| match line.strip_suffix(b"\n") {
                    Some(full) if full.len() == LINE_MAX => vec![b'?'],
                    Some(line) => line.to_vec(),
                    None => line.to_vec(),
                })
                .collect()
        }),
    ),
    (
        "a first line of 1,101 bytes is not too long",
        First(|line| {
            if line.len() == 1_101 && line[33] == b'0' {
                line.remove(33);
            }
        }),
    ),
    (
        "0 places are 1",
        Places(|places| swap_number(places, b"0", b"1")),
    ),
    (
        "65 places are 64",
        Places(|places| swap_number(places, b"65", b"64")),
    ),
    (
        "64 places are refused",
        Places(|places| swap_number(places, b"64", b"?")),
    ),
    (
        "places over 99 are 64",
        Places(|places| {
            if digits(places) && places.len() - zeros(places) > 2 {
                *places = b"64".to_vec();
            }
        }),
    ),
    ("places of 8 bits", Places(|places| wrap(places, 8))),
    ("places of 32 bits", Places(|places| wrap(places, 32))),
    ("places of 64 bits", Places(|places| wrap(places, 64))),
    (
        "zeros before places are refused",
        Places(|places| spoil_if(zeros(places) > 0, places)),
    ),
    ("spaces around places are dropped", Places(trim)),
    (
        "places end at what is no digit",
        Places(|places| end_at(places, |byte| !byte.is_ascii_digit())),
    ),
    ("a key of 30 digits", Key(|key| take_key(key, 30))),
    ("a key of 31 digits", Key(|key| take_key(key, 31))),
    ("a key of 33 digits", Key(|key| take_key(key, 33))),
    ("a key of 34 digits", Key(|key| take_key(key, 34))),
    (
        "a key in upper case is refused",
        Key(|key| spoil_if(key.iter().any(u8::is_ascii_uppercase), key)),
    ),
    (
        "a key is any 32 bytes",
        Key(|key| {
            if key.len() == 32 {
                key.fill(b'0');
            }
        }),
    ),
    (
        "a third field in the first line is dropped",
        First(|line| {
            let fields = parted(line);
            *line = fields[..fields.len().min(2)].join(&b'\t');
        }),
    ),
    (
        "a space parts the first line too",
        First(|line| replace(line, b' ', b'\t')),
    ),
    ("one entry", Start(|player| player.chip.truncate(ENTRY))),
    (
        "an entry fewer than places",
        Start(|player| {
            let entries = player.chip.len() / ENTRY;
            player.chip.truncate(ENTRY * (entries - 1).max(1));
        }),
    ),
    ("one place", Start(|player| player.card.truncate(PLACE))),
    (
        "a place more, up to 64",
        Start(|player| {
            let places = player.card.len() / PLACE;
            player.card.resize(PLACE * (places + 1).min(64), 0);
            player.chip.resize(ENTRY * (places + 1).min(64), 0);
        }),
    ),
    (
        "64 places always",
        Start(|player| {
            player.card.resize(64 * PLACE, 0);
            player.chip.resize(64 * ENTRY, 0);
        }),
    ),
    (
        "card and chip of each other's length",
        Start(|player| std::mem::swap(&mut player.card, &mut player.chip)),
    ),
    (
        "goes on after a bad first line",
        NotBegun(|why, lines| lines.iter().map(|_| not_begun(why)).collect()),
    ),
    (
        "takes the next line for the first",
        NotBegun(|why, lines| {
            let rest = lines.get(1..).unwrap_or(&[]).join(&b'\n');
            let mut replies = vec![not_begun(why)];
            if !rest.is_empty() {
                replies.extend(replay::play(&rest));
            }
            replies
        }),
    ),
    (
        "an empty input is not answered",
        NotBegun(|why, _| match why {
            Unreadable::NoLine => Vec::new(),
            why => vec![not_begun(why)],
        }),
    ),
    (
        "a bad first line is not answered",
        NotBegun(|_, _| Vec::new()),
    ),
    ("1,099 bytes are the most", Longest(1_099)),
    ("1,101 bytes are the most", Longest(1_101)),
    ("1,102 bytes are the most", Longest(1_102)),
    ("no line is too long", Longest(usize::MAX)),
    (
        "hex in upper case is refused",
        Hex(|hex| spoil_if(hex.iter().any(u8::is_ascii_uppercase), hex)),
    ),
    (
        "an odd digit is dropped",
        Hex(|hex| hex.truncate(hex.len() / 2 * 2)),
    ),
    (
        "an odd digit gets a zero",
        Hex(|hex| {
            if hex.len() % 2 > 0 {
                hex.insert(0, b'0');
            }
        }),
    ),
    (
        "hex ends at what is no digit",
        Hex(|hex| {
            end_at(hex, |byte| !byte.is_ascii_hexdigit());
            hex.truncate(hex.len() / 2 * 2);
        }),
    ),
    (
        "what is no hex digit is 0",
        Hex(|hex| {
            for digit in hex {
                if !digit.is_ascii_hexdigit() {
                    *digit = b'0';
                }
            }
        }),
    ),
    (
        "no hex is refused",
        Hex(|hex| spoil_if(hex.is_empty(), hex)),
    ),
    ("flags of 32 bits", Flags(|flags| wrap(flags, 32))),
    ("flags of 64 bits", Flags(|flags| wrap(flags, 64))),
    (
        "flags too big are the biggest",
        Flags(|flags| {
            if digits(flags) && flags.len() - zeros(flags) >= 10 {
                *flags = b"4294967295".to_vec();
            }
        }),
    ),
    (
        "4294967295 is refused",
        Flags(|flags| swap_number(flags, b"4294967295", b"?")),
    ),
    (
        "4294967296 is the most",
        Flags(|flags| swap_number(flags, b"4294967296", b"4294967295")),
    ),
    (
        "zeros in front are refused",
        Flags(|flags| spoil_if(zeros(flags) > 0, flags)),
    ),
    (
        "zeros in front make octal",
        Flags(|flags| {
            let octal = std::str::from_utf8(flags).map(|digits| u32::from_str_radix(digits, 8));
            if let (Ok(Ok(value)), true) = (octal, zeros(flags) > 0) {
                *flags = value.to_string().into_bytes();
            }
        }),
    ),
    (
        "11 digits are refused",
        Flags(|flags| spoil_if(flags.len() > 10, flags)),
    ),
    (
        "21 digits are refused",
        Flags(|flags| spoil_if(flags.len() > 20, flags)),
    ),
    (
        "256 digits are refused",
        Flags(|flags| spoil_if(flags.len() > 255, flags)),
    ),
    (
        "1,000 digits are refused",
        Flags(|flags| spoil_if(flags.len() > 999, flags)),
    ),
    (
        "no digits are 0",
        Flags(|flags| {
            if flags.is_empty() {
                flags.push(b'0');
            }
        }),
    ),
    (
        "a sign may stand in front",
        Flags(|flags| {
            if matches!(flags.first(), Some(b'+' | b'-')) {
                flags.remove(0);
            }
        }),
    ),
    ("spaces around flags are dropped", Flags(trim)),
    (
        "flags end at what is no digit",
        Flags(|flags| end_at(flags, |byte| !byte.is_ascii_digit())),
    ),
    (
        "flags may be in hex",
        Flags(|flags| {
            if let [digit @ b'a'..=b'f'] = flags[..] {
                *flags = (digit - b'a' + 10).to_string().into_bytes();
            }
        }),
    ),
    (
        "a colon is a digit",
        Flags(|flags| {
            if flags[..] == *b":" {
                *flags = b"10".to_vec();
            }
        }),
    ),
    (
        "data before IV",
        Fields(|fields| {
            if fields.len() == 5 {
                fields.swap(3, 4);
            }
        }),
    ),
    (
        "flags before the name",
        Fields(|fields| {
            if fields.len() == 5 {
                fields.swap(1, 2);
            }
        }),
    ),
    (
        "an empty field at the end is dropped",
        Fields(|fields| {
            if fields.len() > right_count(fields) && fields.ends_with(&[Vec::new()]) {
                fields.pop();
            }
        }),
    ),
    (
        "fields over are dropped",
        Fields(|fields| fields.truncate(right_count(fields))),
    ),
    (
        "fields missing are empty",
        Fields(|fields| {
            if fields.len() < right_count(fields) {
                fields.resize(right_count(fields), Vec::new());
            }
        }),
    ),
    (
        "tabs in a row are one",
        Fields(|fields| fields.retain(|field| !field.is_empty())),
    ),
    (
        "a tab in front is dropped",
        Fields(|fields| {
            if fields[0].is_empty() {
                fields.remove(0);
            }
        }),
    ),
    (
        "spaces part fields too",
        Line(|line| replace(line, b' ', b'\t')),
    ),
    (
        "a word's case does not matter",
        Fields(|fields| fields[0].make_ascii_lowercase()),
    ),
    (
        "a word may go on",
        Fields(|fields| word_like(fields, |field, word| field.starts_with(word))),
    ),
    (
        "a word may be cut",
        Fields(|fields| {
            word_like(fields, |field, word| {
                !field.is_empty() && word.starts_with(field)
            })
        }),
    ),
    (
        "the first byte is the word",
        Fields(|fields| word_like(fields, |field, word| field.first() == word.first())),
    ),
    (
        "spaces around a word are dropped",
        Fields(|fields| trim(&mut fields[0])),
    ),
    (
        "NUL ends a word",
        Fields(|fields| end_at(&mut fields[0], |byte| byte == 0)),
    ),
    (
        "an IV of a wrong length is unreadable",
        Refuses(|call| matches!(call, Call::Set { iv, .. } if iv.len() != 8)),
    ),
    (
        "no IV is zeros",
        Iv(|iv| {
            if iv.is_empty() {
                iv.resize(16, b'0');
            }
        }),
    ),
    (
        "a long IV is cut",
        Iv(|iv| {
            if iv.len() % 2 == 0 {
                iv.truncate(16);
            }
        }),
    ),
    (
        "a short IV is filled",
        Iv(|iv| {
            if iv.len() % 2 == 0 && iv.len() < 16 {
                iv.resize(16, b'0');
            }
        }),
    ),
    (
        "data over 480 bytes are unreadable",
        Refuses(|call| matches!(call, Call::Set { data, .. } if data.len() > 480)),
    ),
    (
        "data over 480 bytes are cut",
        Data(|data| {
            if data.len() % 2 == 0 {
                data.truncate(960);
            }
        }),
    ),
    (
        "bad flags are unreadable",
        Refuses(|call| matches!(call, Call::Set { flags: 16.., .. })),
    ),
    (
        "an empty name is unreadable",
        Refuses(|call| name_is(call, <[u8]>::is_empty)),
    ),
    (
        "a long name is unreadable",
        Refuses(|call| name_is(call, |name| name.len() > 64)),
    ),
    (
        "a bad name is unreadable",
        Refuses(|call| name_is(call, |name| name.iter().any(|byte| *byte < 0x20))),
    ),
    (
        "a name in no UTF-8 is unreadable",
        Refuses(|call| name_is(call, |name| std::str::from_utf8(name).is_err())),
    ),
    ("a long name is cut", Name(|name| name.truncate(64))),
    (
        "NUL ends a name",
        Name(|name| end_at(name, |byte| byte == 0)),
    ),
    (
        "CR ends a name",
        Name(|name| end_at(name, |byte| byte == b'\r')),
    ),
    ("spaces around a name are dropped", Name(trim)),
    (
        "a name's case does not matter",
        Name(|name| name.make_ascii_lowercase()),
    ),
    (
        "nothing is kept from line to line",
        Answers(|player, call| player.clone().answer(call)),
    ),
    (
        "a remove is not kept",
        Answers(|player, call| match call {
            Call::Remove { .. } => player.clone().answer(call),
            _ => player.answer(call),
        }),
    ),
    (
        "the chip is not kept",
        Answers(|player, call| {
            let reply = player.answer(call);
            player.chip.fill(0);
            reply
        }),
    ),
    (
        "a get takes the record out",
        Answers(|player, call| {
            let reply = player.answer(call);
            if let Call::Get { .. } = call {
                take_out(player, call);
            }
            reply
        }),
    ),
    (
        "a refused set takes the record out",
        Answers(|player, call| {
            let reply = player.answer(call);
            if let (Call::Set { .. }, 1..) = (call, reply.verdict.number()) {
                take_out(player, call);
            }
            reply
        }),
    ),
    (
        "get prints its whole output",
        Replies(|_, reply| {
            if reply.verdict == Verdict::Called(1, None) {
                reply.bytes.resize(480, 0);
            }
        }),
    ),
    (
        "get has 479 bytes of output",
        Replies(|_, reply| reply.bytes.truncate(479)),
    ),
    (
        "get has 64 bytes of output",
        Replies(|_, reply| reply.bytes.truncate(64)),
    ),
    (
        "get prints up to a zero",
        Replies(|_, reply| end_at(&mut reply.bytes, |byte| byte == 0)),
    ),
    (
        "set prints its data",
        Replies(|call, reply| {
            if let (Call::Set { data, .. }, 0) = (call, reply.verdict.number()) {
                reply.bytes = data.clone();
            }
        }),
    ),
    (
        "hex is printed in upper case",
        Prints(|printed| printed.to_ascii_uppercase()),
    ),
    (
        "no newline behind the last answer",
        Prints(|mut printed| {
            printed.pop();
            printed
        }),
    ),
    (
        "one newline more at the end",
        Prints(|mut printed| {
            printed.push(b'\n');
            printed
        }),
    ),
    (
        "the first line is answered too",
        Prints(|printed| [&b"0\t\n"[..], &printed].concat()),
    ),
    (
        "no tab without bytes",
        PrintsLine(|line| line.trim_end().into()),
    ),
    (
        "a space for the tab",
        PrintsLine(|line| line.replace('\t', " ")),
    ),
    ("two tabs", PrintsLine(|line| line.replace('\t', "\t\t"))),
    (
        "CR before the newline",
        PrintsLine(|line| format!("{line}\r")),
    ),
    (
        "numbers of two digits",
        PrintsLine(|line| {
            format!(
                "{}{line}",
                if line.find('\t') == Some(1) { "0" } else { "" }
            )
        }),
    ),
    (
        "numbers in hex",
        PrintsLine(|line| line.replacen("10\t", "a\t", 1).replacen("15\t", "f\t", 1)),
    ),
];

/// How many nights of a seed have to be enough.
const NIGHTS: u64 = 2_000;

#[test]
fn each_is_told() {
    let edges = night_edges::table().into_iter();
    let edges: Vec<(Line, Line)> = edges.map(|(_, night, due)| (night, due)).collect();
    let nights = (0..NIGHTS).map(|index| nights::night(1, index));
    let nights = nights.map(|night| (replay::replay(&night), night));
    let nights: Vec<(Line, Line)> = nights.map(|(due, night)| (night, due)).collect();
    let tell = |nights: &[(Line, Line)], wrong: &Wrong| {
        let differs = |(night, due): &(Line, Line)| wrong.replay(night) != *due;
        nights.iter().any(differs)
    };
    let right = Longest(LINE_MAX);
    assert!(!tell(&edges, &right) && !tell(&nights, &right));
    let mut untold = Vec::new();
    for (name, wrong) in IMPOSTORS {
        for (check, nights) in [("edges", &edges), ("nights", &nights)] {
            if !tell(nights, wrong) {
                untold.push(format!("{name}: not told by the {check}"));
            }
        }
    }
    assert!(untold.is_empty(), "{}", untold.join("\n"));
}
