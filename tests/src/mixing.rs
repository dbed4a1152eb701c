//! Mixes for the stories, of every shape or wrong in one way of 02, No. 5; and what a
//! search for one met on the card.

use std::fmt;

use crate::answer::Why;
use crate::area;
use crate::calls::{self, Call};
use crate::cast::good_bytes;
use crate::mix::{self, Mix, Send, HEADER, SEND, SENDS_MAX};
use crate::record::Record;
use crate::rng::Rng;

/// Both ends of what a level and a pan may be, with their neighbours; zeros,
/// subnormals, infinities, and NaNs quiet and signalling.
pub const EDGES: [u32; 28] = [
    0,
    1,
    0x007f_ffff,
    0x0080_0000,
    0x3f7f_ffff,
    0x3f80_0000,
    0x3f80_0001,
    0x407f_ffff,
    0x4080_0000,
    0x4080_0001,
    0x7f7f_ffff,
    0x7f80_0000,
    0x7f80_0001,
    0x7fbf_ffff,
    0x7fc0_0000,
    0x7fff_ffff,
    0x8000_0000,
    0x8000_0001,
    0x807f_ffff,
    0xbf7f_ffff,
    0xbf80_0000,
    0xbf80_0001,
    0xc080_0000,
    0xff7f_ffff,
    0xff80_0000,
    0xff80_0001,
    0xffc0_0000,
    0xffff_ffff,
];
const COUNTS: [usize; 9] = [0, 1, 1, 2, 2, 3, 8, 15, 16];
/// Names that look like a mix's and are none.
pub const OTHER_NAMES: [&[u8]; 8] = [
    b"mix", b"mix.", b"Mix/x", b"MIX/", b"mixer/x", b"a/mix/x", b" mix/x", b"mix\\x",
];
const SESSIONS: [u64; 5] = [0, 1, u64::MAX, 1 << 32, 0x0123_4567_89ab_cdef];

/// Two or three of them, so that many mixes hold the same.
pub fn sessions(rng: &mut Rng) -> Vec<u64> {
    let any = rng.number();
    vec![rng.pick(&SESSIONS), rng.pick(&SESSIONS), any]
}

/// Names of mixes, at times one that only looks so.
pub fn names(rng: &mut Rng) -> Vec<Vec<u8>> {
    let mut names = Vec::new();
    for _ in 0..1 + rng.below(3) {
        let length = rng.pick(&[0, 1, 1, 2, 8, 24, 25, 60]);
        names.push([mix::PREFIX, &good_bytes(rng, length)].concat());
    }
    if rng.percent(40) {
        names.push(rng.pick(&OTHER_NAMES).to_vec());
    }
    names
}

/// A name under which a mix is expected, rightly or not.
pub fn mix_like(name: &[u8]) -> bool {
    name.starts_with(mix::PREFIX) || OTHER_NAMES.contains(&name)
}

pub fn level(rng: &mut Rng) -> u32 {
    let edges = EDGES.map(|bits| if mix::level_bits(bits) { bits } else { 0 });
    match rng.below(3) {
        0 => rng.pick(&edges),
        _ => rng.below(0x4080_0001) as u32,
    }
}

pub fn pan(rng: &mut Rng) -> u32 {
    let edges = EDGES.map(|bits| if mix::pan_bits(bits) { bits } else { 1 << 31 });
    match rng.below(3) {
        0 => rng.pick(&edges),
        _ => rng.below(0x3f80_0001) as u32 | (rng.below(2) as u32) << 31,
    }
}

/// Bits that are no level.
pub fn wrong_level(rng: &mut Rng) -> u32 {
    loop {
        let bits = any_bits(rng);
        if !mix::level_bits(bits) {
            return bits;
        }
    }
}

pub fn wrong_pan(rng: &mut Rng) -> u32 {
    loop {
        let bits = any_bits(rng);
        if !mix::pan_bits(bits) {
            return bits;
        }
    }
}

fn any_bits(rng: &mut Rng) -> u32 {
    let random = rng.number() as u32;
    let edge = rng.pick(&EDGES);
    rng.pick(&[random, edge])
}

fn send(rng: &mut Rng) -> Send {
    match rng.below(4) {
        0 => Send::Muted,
        1 => Send::Level(level(rng)),
        _ => Send::LevelAndPan(level(rng), pan(rng)),
    }
}

/// Mostly of one of the sessions; else one bit beside it, or any.
pub fn session(rng: &mut Rng, sessions: &[u64]) -> u64 {
    match (rng.below(10), sessions) {
        (_, []) | (0, _) => rng.number(),
        (1, _) => rng.pick(sessions) ^ 1 << rng.below(64),
        _ => rng.pick(sessions),
    }
}

pub fn mix(rng: &mut Rng, sessions: &[u64]) -> Mix {
    let session = session(rng, sessions);
    let count = rng.pick(&COUNTS);
    Mix {
        session,
        sends: (0..count).map(|_| send(rng)).collect(),
    }
}

/// A mix's bytes, wrong in one way; now and then a change leaves them good.
pub fn wrong(rng: &mut Rng, mix: Mix) -> Vec<u8> {
    let mut bytes = mix.encode();
    let count = mix.sends.len();
    let at = HEADER + rng.below(count.max(1)) * SEND;
    match rng.below(10) {
        0 => bytes[8] = rng.pick(&[17, 18, 32, 255, count as u8 + 1]),
        1 => bytes[8] = (count as u8).wrapping_sub(1),
        2 => bytes.push(rng.pick(&[0, 1])),
        3 => {
            let more = rng.pick(&[SEND, HEADER + SENDS_MAX * SEND]);
            bytes.resize(bytes.len() + more, 0);
        }
        4 => bytes.truncate(rng.below(bytes.len())),
        5 => {
            // More sends than there may be, and as many bytes as they need.
            bytes[8] = 17 + rng.below(10) as u8;
            bytes.resize(HEADER + usize::from(bytes[8]) * SEND, 0);
        }
        _ if count == 0 => bytes.clear(),
        6 => bytes[at] = rng.pick(&[3, 4, 0x80, 0xff]),
        7 => {
            let wrong = wrong_level(rng).to_le_bytes();
            bytes[at] = rng.pick(&[mix::LEVEL, mix::LEVEL_AND_PAN]);
            bytes[at + 1..at + 5].copy_from_slice(&wrong);
            bytes[at + 5..at + 9].fill(0);
        }
        8 => {
            let wrong = wrong_pan(rng).to_le_bytes();
            bytes[at] = mix::LEVEL_AND_PAN;
            bytes[at + 1..at + 5].fill(0);
            bytes[at + 5..at + 9].copy_from_slice(&wrong);
        }
        _ => {
            // A muted send with a level, or one without a pan with one.
            let (tag, first) = rng.pick(&[(mix::MUTED, 1), (mix::LEVEL, 5)]);
            bytes[at] = tag;
            bytes[at + 1..at + 9].fill(0);
            bytes[at + first + rng.below(9 - first)] = rng.pick(&[1, 0x80]);
        }
    }
    bytes
}

/// What a search met that was not refused by 1 or 2.
#[derive(Clone, Copy, Debug, PartialEq, Eq, PartialOrd, Ord)]
pub enum Met {
    /// So many records hold the session, of so many that were tried.
    Held(usize, usize),
    /// A record is refused by this number; the session is held by lower ones, or by
    /// higher ones.
    Refused {
        number: u32,
        lower: bool,
        higher: bool,
    },
    /// A second record, with another number, is refused too.
    RefusedTwice,
    /// Only a record with a name that looks like a mix's holds the session.
    Elsewhere,
    /// The chip alone has the name.
    OnChip,
}

impl fmt::Display for Met {
    fn fmt(&self, f: &mut fmt::Formatter) -> fmt::Result {
        match self {
            Met::Held(held, tried) => write!(f, "{held} of {tried} records hold the session"),
            Met::Refused {
                number,
                lower,
                higher,
            } => {
                let where_held = match (lower, higher) {
                    (false, false) => "by none",
                    (true, false) => "by a lower one",
                    (false, true) => "by a higher one",
                    (true, true) => "by a lower and a higher one",
                };
                write!(
                    f,
                    "a record is refused by {number}, the session held {where_held}"
                )
            }
            Met::RefusedTwice => write!(f, "a higher record is refused by another number"),
            Met::Elsewhere => write!(f, "only a record of another name holds the session"),
            Met::OnChip => write!(f, "the chip alone has a mix's name"),
        }
    }
}

/// More are counted as so many.
const COUNTED: usize = 3;

/// What has to come in the stories.
pub fn due() -> Vec<Met> {
    let held = [
        (0, 0),
        (0, 1),
        (0, 2),
        (1, 1),
        (1, 2),
        (1, 3),
        (2, 2),
        (2, 3),
        (3, 3),
    ];
    let mut due: Vec<Met> = held.map(|(held, tried)| Met::Held(held, tried)).to_vec();
    for number in [8, 11, 12, 20] {
        for (lower, higher) in [(false, false), (true, false), (false, true), (true, true)] {
            due.push(Met::Refused {
                number,
                lower,
                higher,
            });
        }
    }
    due.extend([Met::RefusedTwice, Met::Elsewhere, Met::OnChip]);
    due
}

/// What this call meets; nothing for any other call.
pub fn met(card: &[u8], chip: &[u8], call: &Call) -> Vec<Met> {
    let (key, session) = match call {
        Call::FindMix { key, session, .. } => (key, *session),
        _ => return Vec::new(),
    };
    let number = calls::answer(card, chip, call).0.number;
    if let 1 | 2 = number {
        return Vec::new();
    }
    let (card_slots, chip_slots) = area::decode(card, chip).expect("2 was tested");
    let key = calls::device_key(key).expect("1 was tested");
    let get = |name: &[u8]| {
        let record = calls::readable(&card_slots, &chip_slots, &key, name);
        let mix = record.and_then(|record| Mix::decode(&record.data(&key, name)));
        mix.map(|mix| mix.session == session).map_err(Why::number)
    };
    let named = card_slots.used().map(|(_, place)| &place.name[..]);
    let (tried, others): (Vec<&[u8]>, Vec<&[u8]>) =
        named.partition(|name| name.starts_with(mix::PREFIX));
    let tried: Vec<Result<bool, u32>> = tried.into_iter().map(get).collect();
    let held = tried.iter().filter(|holds| **holds == Ok(true)).count();
    let mut met = Vec::new();
    match tried.iter().position(|holds| holds.is_err()) {
        Some(first) => {
            let (lower, higher) = tried.split_at(first);
            met.push(Met::Refused {
                number,
                lower: lower.contains(&Ok(true)),
                higher: higher.contains(&Ok(true)),
            });
            let other = |holds: &Result<bool, u32>| holds.is_err() && *holds != tried[first];
            met.extend(higher.iter().any(other).then_some(Met::RefusedTwice));
        }
        None => met.push(Met::Held(held.min(COUNTED), tried.len().min(COUNTED))),
    }
    let elsewhere = number == 6 && others.into_iter().any(|name| get(name) == Ok(true));
    met.extend(elsewhere.then_some(Met::Elsewhere));
    let mut kept = chip_slots.used().map(|(_, entry)| &entry.name);
    let alone = |name: &Vec<u8>| name.starts_with(mix::PREFIX) && card_slots.find(name).is_none();
    met.extend(kept.any(alone).then_some(Met::OnChip));
    met
}

/// The sessions of the records that can be read as mixes under this key.
pub fn held(card: &area::Card, key: &[u8; 16]) -> Vec<u64> {
    let session = |name: &[u8], record: &[u8]| {
        let data = Record::decode(record)?.data(key, name);
        Some(Mix::decode(&data).ok()?.session)
    };
    let places = card.used().map(|(_, place)| place);
    let mixes = places.filter(|place| place.name.starts_with(mix::PREFIX));
    let sessions = mixes.filter_map(|place| session(&place.name, &place.record));
    sessions.collect()
}
