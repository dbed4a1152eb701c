//! 02, No. 3: the number that a comparison of two CMACs hands back, and whole calls
//! on records of which some bits of a CMAC are inverted, on the card or on the chip.

use crate::aes::{Block, BLOCK};
use crate::area::{Card, Chip, Entry, Place, ENTRY, NAME_MAX, PLACE};
use crate::calls::Call;
use crate::ciphers::Checked;
use crate::keyfile::{key_name, Attributes, KeyFile};
use crate::library::Library;
use crate::record::{Flags, Record, DATA_MAX};
use crate::rng::Rng;
use crate::show;
use crate::stories::compare;

/// "the bitwise or of the sixteen pairs' exclusive ors": each bit that differs in at
/// least one of the sixteen pairs.
pub fn difference(a: &Block, b: &Block) -> u32 {
    let bit = |byte: &u8, k: u32| u32::from(*byte) / 2_u32.pow(k) % 2;
    let differs = |k: &u32| a.iter().zip(b).any(|(x, y)| bit(x, *k) != bit(y, *k));
    (0..8).filter(differs).map(|k| 2_u32.pow(k)).sum()
}

/// One of the 128 bits of a tag.
fn one_bit(at: usize) -> Block {
    let mut bits = [0; BLOCK];
    bits[at / 8] = 1 << (at % 8);
    bits
}

fn flipped(tag: &Block, bits: &Block) -> Block {
    std::array::from_fn(|at| tag[at] ^ bits[at])
}

/// The library's numbers of two tags, both ways round, beside the reference's.
struct Pairs<'a> {
    library: &'a dyn Library,
    tried: usize,
    /// The numbers that were handed back.
    seen: [bool; 256],
}

impl Pairs<'_> {
    fn new(library: &dyn Library) -> Pairs<'_> {
        Pairs {
            library,
            tried: 0,
            seen: [false; 256],
        }
    }

    fn compare(&mut self, a: &Block, b: &Block) -> Result<(), String> {
        let expected = difference(a, b);
        for (a, b) in [(a, b), (b, a)] {
            let got = self.library.tag_difference(a, b)?;
            if got != expected {
                let (a, b) = (show::hex(a), show::hex(b));
                return Err(format!("{a} and {b}: {got:#x}, not {expected:#x}"));
            }
        }
        self.tried += 1;
        self.seen[expected as usize] = true;
        Ok(())
    }

    /// How many pairs there were, and how many numbers, which have to be so many.
    fn verdict(&self, numbers: usize) -> Checked {
        let seen = self.seen.iter().filter(|seen| **seen).count();
        if seen == numbers {
            Ok(format!("{} pairs, {seen} numbers", self.tried))
        } else {
            Err(format!("{seen} numbers, not {numbers}"))
        }
    }
}

/// Tags to change: all zeros, all ones, and some random ones.
fn bases(rng: &mut Rng) -> Vec<Block> {
    let mut bases = vec![[0; BLOCK], [0xff; BLOCK]];
    bases.extend((0..6).map(|_| rng.array::<BLOCK>()));
    bases
}

/// Each of the 128 bits, alone and with each other one; no bit too.
fn bits(library: &dyn Library, mut rng: Rng) -> Checked {
    let mut pairs = Pairs::new(library);
    for base in bases(&mut rng) {
        pairs.compare(&base, &base)?;
        for first in 0..128 {
            let one = flipped(&base, &one_bit(first));
            pairs.compare(&base, &one)?;
            for second in 0..first {
                pairs.compare(&base, &flipped(&one, &one_bit(second)))?;
            }
        }
    }
    // None, one or two bits of a byte.
    pairs.verdict(1 + 8 + 28)
}

/// Each number in each of the sixteen places.
fn bytes(library: &dyn Library, mut rng: Rng) -> Checked {
    let mut pairs = Pairs::new(library);
    for base in bases(&mut rng) {
        for at in 0..BLOCK {
            for byte in 0..=u8::MAX {
                let mut other = base;
                other[at] = byte;
                pairs.compare(&base, &other)?;
            }
        }
    }
    pairs.verdict(256)
}

/// Of two random tags nearly all give 255, so in most pairs only some bits of some
/// bytes differ.
fn random(library: &dyn Library, mut rng: Rng) -> Checked {
    let mut pairs = Pairs::new(library);
    for round in 0..1_000_000 {
        let a: Block = rng.array();
        let other: Block = rng.array();
        let (places, mask) = (rng.number(), rng.number() as u8);
        let some = |at: usize| match round % 8 {
            0 => 0,
            1 => other[at],
            _ if places >> at & 1 == 1 => other[at] & mask,
            _ => 0,
        };
        pairs.compare(&a, &flipped(&a, &std::array::from_fn(some)))?;
    }
    pairs.verdict(256)
}

/// How many calls were tried, or what differed.
type Tried = Result<usize, String>;

/// A record with integrity beside another one, and the calls that compare its CMAC.
struct Scene {
    card: Vec<u8>,
    chip: Vec<u8>,
    /// Where the record's CMAC stands on the card.
    stored_at: usize,
    /// With replay protection, where the chip has it.
    kept_at: Option<usize>,
    calls: Vec<Call>,
}

fn scene(rng: &mut Rng, flags: u32, name: &[u8], data: &[u8], identifier: Option<u32>) -> Scene {
    let key: Block = rng.array();
    let flags = Flags::accept(flags).expect("good flags");
    let mut seal = |name: &[u8], data: &[u8]| {
        let record = Record::seal(&key, name, flags, &rng.array(), data);
        let (record, cmac, name) = (record.encode(), record.cmac, name.to_vec());
        let entry = Entry {
            name: name.clone(),
            cmac,
        };
        let entry = flags.replay_protection().then_some(entry);
        (Place { name, record }, entry)
    };
    let (place, entry) = seal(name, data);
    // In front of any name here.
    let (other, other_entry) = seal(b"!", b"data");
    let card = Card::holding(2, [other, place]);
    let chip = Chip::holding(3, other_entry.into_iter().chain(entry));
    Scene {
        card: card.encode(),
        chip: chip.encode(),
        stored_at: PLACE + 68 + 20 + data.len(),
        kept_at: flags.replay_protection().then_some(2 * ENTRY - BLOCK),
        calls: reading(&key, name, identifier),
    }
}

/// A short output and an empty one need as many bytes of the CMAC as a long one.
fn reading(key: &Block, name: &[u8], identifier: Option<u32>) -> Vec<Call> {
    let key = key.to_vec();
    let get = |length| Call::Get {
        key: key.clone(),
        name: name.to_vec(),
        offset: 0,
        output: vec![0xee; length],
    };
    let info = Call::Info {
        key: key.clone(),
        name: name.to_vec(),
    };
    let load = identifier.map(|identifier| Call::LoadKey {
        key: key.clone(),
        identifier,
        key_buffer: vec![0xee; DATA_MAX],
    });
    let calls = [get(DATA_MAX), get(1), get(0), info];
    calls.into_iter().chain(load).collect()
}

impl Scene {
    /// How many calls answered this number, the reference's too, on card and chip with
    /// these bits of the CMACs inverted.
    fn answer(&self, library: &dyn Library, stored: &Block, kept: &Block, number: u32) -> Tried {
        let (mut card, mut chip) = (self.card.clone(), self.chip.clone());
        invert(&mut card[self.stored_at..], stored);
        if let Some(at) = self.kept_at {
            invert(&mut chip[at..], kept);
        }
        for call in &self.calls {
            let got = compare(library, &card, &chip, call)?;
            if got != number {
                return Err(format!("{got}, not {number}\n  {}", show::call(call)));
            }
        }
        Ok(self.calls.len())
    }
}

fn invert(bytes: &mut [u8], bits: &Block) {
    for (byte, bits) in bytes.iter_mut().zip(bits) {
        *byte ^= bits;
    }
}

const NONE: Block = [0; BLOCK];

/// Each bit of the CMAC on the card is 11, and of the chip's 12; with both changed
/// alike the two agree, and the computed one decides. Nothing changed is 0.
fn each_bit(library: &dyn Library, scene: &Scene) -> Tried {
    let mut tried = scene.answer(library, &NONE, &NONE, 0)?;
    for bit in 0..128 {
        let bit = one_bit(bit);
        tried += scene.answer(library, &bit, &NONE, 11)?;
        if scene.kept_at.is_some() {
            tried += scene.answer(library, &NONE, &bit, 12)?;
            tried += scene.answer(library, &bit, &bit, 11)?;
        }
    }
    Ok(tried)
}

/// One bit in two bytes, which an exclusive or over the bytes would lose, and of the
/// highest bit a sum too.
fn two_bytes(library: &dyn Library, scene: &Scene) -> Tried {
    let mut tried = 0;
    for first in 0..BLOCK {
        for second in 0..first {
            for bit in [0, 3, 7] {
                let both = flipped(&one_bit(8 * first + bit), &one_bit(8 * second + bit));
                tried += scene.answer(library, &both, &NONE, 11)?;
                if scene.kept_at.is_some() {
                    tried += scene.answer(library, &NONE, &both, 12)?;
                }
            }
        }
    }
    Ok(tried)
}

const FLAGS: [u32; 8] = [4, 5, 6, 7, 12, 13, 14, 15];

/// Records of each kind of flags and each length, under names of several lengths.
fn records(rng: &mut Rng) -> Vec<Scene> {
    let names = [1, 12, 28, 29, NAME_MAX];
    let mut scenes = Vec::new();
    for (number, flags) in FLAGS.into_iter().enumerate() {
        for (at, size) in [0, 1, 15, 16, 17, DATA_MAX].into_iter().enumerate() {
            let name = vec![b'n'; names[(number + at) % names.len()]];
            let data = rng.bytes(size);
            scenes.push(scene(rng, flags, &name, &data, None));
        }
    }
    scenes
}

/// Key files of each kind of flags.
fn keys(rng: &mut Rng) -> Vec<Scene> {
    let attributes = Attributes {
        lifetime: 1,
        kind: 2,
        usage: 3,
        algorithm: 4,
        enrollment: 5,
    };
    let mut scenes = Vec::new();
    for (number, flags) in FLAGS.into_iter().enumerate() {
        let material = rng.bytes([0, 12, 444][number % 3]);
        let file = KeyFile::new(attributes, &material).expect("at most 444 bytes");
        let identifier = 42 + number as u32;
        let name = key_name(identifier).expect("a good identifier");
        let file = file.encode();
        scenes.push(scene(rng, flags, &name, &file, Some(identifier)));
    }
    scenes
}

fn whole_calls<'a>(
    library: &dyn Library,
    scenes: impl Iterator<Item = &'a Scene>,
    change: fn(&dyn Library, &Scene) -> Tried,
) -> Checked {
    let (mut records, mut tried) = (0, 0);
    for scene in scenes {
        tried += change(library, scene)?;
        records += 1;
    }
    Ok(format!("{records} records, {tried} calls"))
}

pub fn checks(library: &dyn Library, seed: u64) -> Vec<(String, Checked)> {
    let part = |index: u64| Rng::part(seed ^ 8 << 40, index);
    let (records, keys) = (records(&mut part(3)), keys(&mut part(4)));
    // Some of each kind: the pairs are many.
    let some = records.iter().step_by(11).chain(keys.iter().step_by(5));
    vec![
        ("tags-bits".into(), bits(library, part(0))),
        ("tags-bytes".into(), bytes(library, part(1))),
        ("tags-random".into(), random(library, part(2))),
        (
            "tags-in-records".into(),
            whole_calls(library, records.iter(), each_bit),
        ),
        (
            "tags-in-keys".into(),
            whole_calls(library, keys.iter(), each_bit),
        ),
        (
            "tags-in-two-bytes".into(),
            whole_calls(library, some, two_bytes),
        ),
    ]
}

#[cfg(test)]
mod tests {
    use super::*;
    use crate::library::Reference;

    #[test]
    fn the_number_by_hand() {
        let tag = *b"sixteen bytes...";
        let changed = |at: usize, bits: u8| {
            let mut other = tag;
            other[at] ^= bits;
            other
        };
        assert_eq!(difference(&tag, &tag), 0);
        assert_eq!(difference(&[0; BLOCK], &[0xff; BLOCK]), 255);
        for at in 0..BLOCK {
            assert_eq!(difference(&tag, &changed(at, 0x80)), 128);
            assert_eq!(difference(&changed(at, 0x41), &tag), 65);
        }
        // One bit twice is that bit; others are added.
        assert_eq!(difference(&changed(0, 0x80), &changed(15, 0x80)), 128);
        assert_eq!(difference(&changed(0, 0x06), &changed(9, 0x0c)), 14);
        assert_eq!(difference(&[0x0f; BLOCK], &[0xf1; BLOCK]), 254);
    }

    #[test]
    fn the_reference_compares_every_bit() {
        for (name, checked) in checks(&Reference, 1) {
            assert!(checked.is_ok(), "{name}: {checked:?}");
        }
    }
}
