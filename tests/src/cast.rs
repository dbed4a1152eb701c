//! What a story is about: its names and keys, and contents that suit them or
//! are wrong in one way.

use crate::aes::Block;
use crate::area::{Card, Chip, Entry, Place, NAME_MAX};
use crate::handle::{Handle, STAGING};
use crate::keyfile::{key_name, Attributes, KeyFile};
use crate::mixing;
use crate::record::{Flags, Record, DATA_MAX, RECORD_MAX};
use crate::rng::Rng;

pub const GOOD_FLAGS: [u32; 12] = [0, 1, 2, 3, 4, 5, 6, 7, 12, 13, 14, 15];
/// Flags of a start: write once seldom, since it freezes a name.
const USUAL_FLAGS: [u32; 14] = [0, 0, 2, 2, 4, 6, 6, 12, 12, 12, 14, 14, 5, 15];
pub const BAD_BYTES: [u8; 5] = [0, 0x0a, 0x14, 0x1f, 0x7f];
/// The ends of the two ranges of good bytes.
const END_BYTES: [u8; 4] = [0x20, 0x7e, 0x80, 0xff];
pub const DATA_SIZES: [usize; 14] = [0, 1, 2, 15, 16, 17, 31, 32, 33, 64, 100, 300, 479, 480];
const OUTPUT_SIZES: [usize; 12] = [0, 1, 7, 15, 16, 17, 33, 64, 479, 480, 481, 600];
pub const GOOD_IDENTIFIERS: [u32; 5] = [1, 42, 0xfffe_ffff, 0x0001_0000, 0x89ab_cdef];

/// The names, keys and identifiers that a story's calls turn about.
pub struct Cast {
    pub key: [u8; 16],
    pub other_key: [u8; 16],
    pub names: Vec<Vec<u8>>,
    pub identifiers: Vec<u32>,
    /// Of mixes; none where the calls turn about none.
    pub sessions: Vec<u64>,
}

impl Cast {
    pub fn new(rng: &mut Rng) -> Cast {
        let identifiers: Vec<u32> = (0..2).map(|_| rng.pick(&GOOD_IDENTIFIERS)).collect();
        let mut names: Vec<Vec<u8>> = Vec::new();
        let family = good_bytes(rng, NAME_MAX);
        for _ in 0..4 + rng.below(3) {
            // Names of one family share their front, so that some have one salt,
            // and one is another's prefix.
            let length = rng.pick(&[1, 2, 3, 8, 27, 28, 29, 30, 63, 64]);
            let mut name = match rng.below(3) {
                0 => good_bytes(rng, length),
                _ => family[..length].to_vec(),
            };
            if rng.percent(30) {
                *name.last_mut().expect("not empty") = rng.pick(&END_BYTES);
            }
            names.push(name);
        }
        names.extend(identifiers.iter().filter_map(|id| key_name(*id)));
        names.sort();
        names.dedup();
        Cast {
            key: rng.array(),
            other_key: rng.array(),
            names,
            identifiers,
            sessions: Vec::new(),
        }
    }

    /// The same with names of mixes in place of all but one, and with few sessions.
    pub fn about_mixes(mut self, rng: &mut Rng) -> Cast {
        self.names.truncate(1);
        self.names.extend(mixing::names(rng));
        let mut cast = self.with_mixes(rng);
        cast.sessions.truncate(1 + rng.below(2));
        cast
    }

    /// The same with names and sessions of mixes.
    pub fn with_mixes(mut self, rng: &mut Rng) -> Cast {
        self.sessions = mixing::sessions(rng);
        self.names.extend(mixing::names(rng));
        self.names.sort();
        self.names.dedup();
        self
    }
}

pub fn good_bytes(rng: &mut Rng, length: usize) -> Vec<u8> {
    let mut byte = || match rng.below(0x5f + 0x80) as u8 {
        low @ 0..=0x5e => 0x20 + low,
        high => 0x80 + (high - 0x5f),
    };
    (0..length).map(|_| byte()).collect()
}

pub fn hostile_name(rng: &mut Rng) -> Vec<u8> {
    let length = rng.pick(&[0, 1, 2, 16, 63, 64, 65, 66]);
    let mut name = good_bytes(rng, length);
    if length > 0 && (length < 65 || rng.percent(20)) {
        let at = rng.below(length);
        let at = rng.pick(&[0, length - 1, at]);
        name[at] = rng.pick(&BAD_BYTES);
    }
    name
}

pub fn data(rng: &mut Rng) -> Vec<u8> {
    let size = rng.pick(&DATA_SIZES);
    rng.bytes(size)
}

pub fn attributes(rng: &mut Rng) -> Attributes {
    let mut number = || rng.number() as u32;
    Attributes {
        lifetime: number(),
        kind: number(),
        usage: number(),
        algorithm: number(),
        enrollment: number(),
    }
}

pub fn material(rng: &mut Rng) -> Vec<u8> {
    let size = rng.pick(&[0, 1, 16, 32, 32, 100, 443, 444]);
    rng.bytes(size)
}

/// A key file, or one that is wrong in one way of 01.
pub fn key_file(rng: &mut Rng, sound: bool) -> Vec<u8> {
    let attributes = attributes(rng);
    let material = material(rng);
    let mut file = KeyFile::new(attributes, &material)
        .expect("at most 444 bytes")
        .encode();
    if sound {
        return file;
    }
    match rng.below(7) {
        0 => file[rng.below(8)] ^= 1 << rng.below(8),
        1 => file[8 + rng.below(4)] ^= 1 << rng.below(8),
        2 => file.truncate(rng.pick(&[0, 1, 7, 8, 11, 12, 31, 32, 35])),
        3 if file.len() < DATA_MAX => file.push(0),
        4 if file.len() > 36 => {
            file.pop();
        }
        _ => {
            let size = file.len() as u32 - 36;
            let wrong = [size + 1, size.wrapping_sub(1), 445, 0x8000_0000, u32::MAX];
            let wrong = rng.pick(&wrong);
            file[32..36].copy_from_slice(&wrong.to_le_bytes());
        }
    }
    file
}

/// A mix's bytes, or ones that are wrong in one way of 02.
pub fn mix(rng: &mut Rng, cast: &Cast, sound: bool) -> Vec<u8> {
    let mix = mixing::mix(rng, &cast.sessions);
    if sound {
        mix.encode()
    } else {
        mixing::wrong(rng, mix)
    }
}

/// A record for this name, as a set makes it.
pub fn sealed(rng: &mut Rng, cast: &Cast, key: &Block, name: &[u8], flags: u32) -> Record {
    let flags = Flags::accept(flags).expect("good flags");
    let content = if key_like(cast, name) && rng.percent(80) {
        let sound = rng.percent(70);
        key_file(rng, sound)
    } else if mixing::mix_like(name) && rng.percent(95) {
        let sound = rng.percent(90);
        mix(rng, cast, sound)
    } else {
        data(rng)
    };
    Record::seal(key, name, flags, &rng.array(), &content)
}

/// Mostly as a set makes it, else out of form.
fn record(rng: &mut Rng, cast: &Cast, name: &[u8]) -> Vec<u8> {
    let flags = rng.pick(&USUAL_FLAGS);
    let bytes = sealed(rng, cast, &cast.key, name, flags).encode();
    if rng.percent(15) {
        out_of_form(rng, bytes)
    } else {
        bytes
    }
}

pub fn key_like(cast: &Cast, name: &[u8]) -> bool {
    cast.identifiers
        .iter()
        .any(|id| key_name(*id).as_deref() == Some(name))
}

/// The record with one field wrong, or at times only changed.
pub fn out_of_form(rng: &mut Rng, mut record: Vec<u8>) -> Vec<u8> {
    if record.len() < 36 {
        return record;
    }
    let size = record.len() as u32 - 36;
    let last = record.len() - 1;
    match rng.below(9) {
        0 => record[..2].copy_from_slice(&rng.pick(&[[0, 0], [19, 0], [21, 0], [0, 20], [20, 1]])),
        1 => record[2..4].copy_from_slice(&rng.pick(&[[0, 0], [2, 0], [1, 1], [0, 1]])),
        2 => {
            let sizes = [size + 1, size.wrapping_sub(1), 481, 0x8000_0000, u32::MAX];
            record[4..8].copy_from_slice(&rng.pick(&sizes).to_le_bytes());
        }
        3 => {
            let wild = rng.number() as u32;
            let flags = rng.pick(&[8, 9, 10, 11, 16, 20, 1 << 31, 0x100, wild]);
            record[8..12].copy_from_slice(&flags.to_le_bytes());
        }
        4 => {
            // Without integrity: its zeros with one wrong byte, or all there.
            record[8] &= 3;
            record[last - 15..].fill(0);
            record[last - rng.below(16)] = rng.pick(&[0, 1, 0x80]);
        }
        5 => {
            // Without confidentiality, likewise.
            record[8] &= !2;
            record[12..20].fill(0);
            record[12 + rng.below(8)] = rng.pick(&[0, 1, 0x80]);
        }
        6 => record.truncate(rng.pick(&[0, 1, 19, 20, 35, last])),
        7 if record.len() < RECORD_MAX => record.push(0),
        _ => record[8] ^= rng.pick(&[1, 2, 4, 8]),
    }
    record
}

/// Good flags that suit the name: mostly those it has, seldom write once.
pub fn flags(rng: &mut Rng, old: Option<u32>) -> u32 {
    match (old, rng.below(100)) {
        (Some(old), 0..=64) => old,
        (_, 0..=84) => rng.pick(&USUAL_FLAGS),
        (_, 85..=94) => rng.pick(&GOOD_FLAGS),
        (Some(old), _) => old | 1,
        (None, _) => 13,
    }
}

pub fn wild_flags(rng: &mut Rng) -> u32 {
    match rng.below(3) {
        0 => rng.below(32) as u32,
        1 => rng.pick(&GOOD_FLAGS) | 1 << (4 + rng.below(28)),
        _ => rng.number() as u32,
    }
}

/// The handle and staging buffer that hold all of a set's data. What is too long
/// or short for them is cut or filled; the handle tells the lengths as they were.
pub fn held(rng: &mut Rng, name: &[u8], flags: u32, iv: &[u8], data: &[u8]) -> (Handle, Vec<u8>) {
    fn fitted<const N: usize>(bytes: &[u8]) -> [u8; N] {
        std::array::from_fn(|at| bytes.get(at).copied().unwrap_or(0))
    }
    let handle = Handle {
        name: fitted(name),
        name_length: name.len() as u32,
        flags,
        iv: fitted(iv),
        declared: data.len() as u32,
        count: data.len() as u32,
    };
    let rest = rng.bytes(STAGING - data.len().min(STAGING));
    let mut staging = [data, &rest].concat();
    staging.truncate(STAGING);
    (handle, staging)
}

/// One of the handle's numbers past its bound, or bytes missing.
pub fn break_handle(rng: &mut Rng, handle: &mut Handle) {
    let wild = [1 << 16, 1 << 31, u32::MAX];
    let wild = rng.pick(&wild);
    let (length, declared) = (handle.name_length, handle.declared);
    match rng.below(5) {
        0 => handle.name_length = rng.pick(&[65, 66, 128, 256 | length, wild | length, wild]),
        1 => handle.declared = rng.pick(&[481, 482, 512 | declared, wild | declared, wild]),
        2 => {
            let more = declared.saturating_add(1);
            handle.count = rng.pick(&[more, 481, wild | declared, wild]);
        }
        3 => handle.declared = handle.count.saturating_sub(1),
        _ => handle.count = handle.count.saturating_sub(1 + rng.below(3) as u32),
    }
}

pub fn offset(rng: &mut Rng, size: usize) -> usize {
    match rng.below(20) {
        0..=6 => 0,
        7..=11 => rng.below(size + 1),
        12 => size.saturating_sub(1),
        13 | 14 => size,
        15 | 16 => size + 1,
        17 => size + rng.below(600),
        18 => rng.pick(&[15, 16, 17, 31, 32, 33]),
        _ => rng.pick(&[usize::MAX, usize::MAX - 15, 1 << 32, 1 << 63]),
    }
}

pub fn output(rng: &mut Rng, size: usize) -> Vec<u8> {
    let length = match rng.below(4) {
        0 => size,
        1 => size + rng.below(20),
        _ => rng.pick(&OUTPUT_SIZES),
    };
    rng.bytes(length)
}

/// A sound card and chip that hold some of the cast.
pub fn sound_start(rng: &mut Rng, cast: &Cast, places: usize, entries: usize) -> (Card, Chip) {
    let (mut card, mut chip) = (Card::free(places), Chip::free(entries));
    let fullness = rng.pick(&[0, 30, 60, 90]);
    for name in &cast.names {
        // The fuller, the less likely.
        let room = rng.below(places) < card.free_slots();
        if rng.percent(fullness) && room {
            card.put(Place {
                name: name.clone(),
                record: record(rng, cast, name),
            });
        }
        let stored = card
            .find(name)
            .and_then(|place| Record::decode(&place.record));
        let (chance, cmac) = match stored {
            Some(record) if record.flags.replay_protection() => (85, record.cmac),
            // Downgraded, though the chip has the very CMAC that the record has.
            Some(record) if rng.percent(50) => (20, record.cmac),
            _ => (20, rng.array()),
        };
        let room = rng.below(entries) < chip.free_slots();
        if rng.percent(chance) && room {
            chip.put(Entry {
                name: name.clone(),
                cmac,
            });
        }
    }
    (card, chip)
}

/// A sound one of any session, which the chip isn't asked for: of very many records one
/// that is refused would decide every search.
fn filler_mix(rng: &mut Rng, cast: &Cast, name: &[u8]) -> Vec<u8> {
    let flags = Flags::accept(rng.pick(&[0, 2, 4, 6])).expect("good flags");
    let mix = mixing::mix(rng, &[]).encode();
    Record::seal(&cast.key, name, flags, &rng.array(), &mix).encode()
}

/// Uses up the free places and entries, all or all but one.
pub fn fill(rng: &mut Rng, cast: &Cast, card: &mut Card, chip: &mut Chip) {
    let left = rng.below(2);
    // Where there are mixes at all, a card may be full of them.
    let mixes = !cast.sessions.is_empty() && rng.percent(50);
    let front = if mixes { "mix/filler-" } else { "filler-" };
    for number in left..card.free_slots() {
        let name = format!("{front}{number}").into_bytes();
        let record = if mixes {
            filler_mix(rng, cast, &name)
        } else {
            record(rng, cast, &name)
        };
        card.put(Place { name, record });
    }
    for number in left..chip.free_slots() {
        let name = format!("filler-{number}").into_bytes();
        let cmac = rng.array();
        chip.put(Entry { name, cmac });
    }
}

#[cfg(test)]
mod tests {
    use super::*;
    use crate::area::good_name;

    #[test]
    fn a_cast_has_good_names_of_all_good_bytes_and_no_others() {
        let mut seen = [false; 256];
        for seed in 0..2000 {
            let cast = Cast::new(&mut Rng::part(seed, 0));
            for name in &cast.names {
                assert!(good_name(name), "{}", name.escape_ascii());
                name.iter().for_each(|byte| seen[usize::from(*byte)] = true);
            }
        }
        let missing = (0..=u8::MAX).filter(|byte| !seen[usize::from(*byte)]);
        let out: Vec<u8> = (0..0x20).chain([0x7f]).collect();
        assert_eq!(missing.collect::<Vec<u8>>(), out);
    }

    #[test]
    fn a_hostile_name_is_bad() {
        for seed in 0..2000 {
            let name = hostile_name(&mut Rng::part(seed, 0));
            assert!(!good_name(&name), "{}", name.escape_ascii());
        }
    }
}
