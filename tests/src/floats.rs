//! The two rules of what a level and a pan may be (02, No. 5), of the bits and of the
//! numbers, held against each other; and the library's encoder and decoder beside them.

use crate::calls::Call;
use crate::ciphers::Checked;
use crate::library::Library;
use crate::mix;
use crate::mixing::EDGES;
use crate::rng::Rng;
use crate::stories::compare;

const SAMPLED: usize = 1_000_000;
/// The library's calls take longer.
const CALLED: usize = 20_000;
/// From 0 to 4 there are 0x40800001 patterns, and minus zero.
const ALL_LEVELS: u64 = 0x4080_0001 + 1;
/// From 0 to 1 there are 0x3f800001, and as many with a sign.
const ALL_PANS: u64 = 2 * 0x3f80_0001;

/// How many of some patterns are a level, and a pan, by both rules.
#[derive(Clone, Copy, Default, PartialEq, Eq, Debug)]
pub struct Accepted {
    pub patterns: u64,
    pub levels: u64,
    pub pans: u64,
}

impl Accepted {
    /// Of all patterns: as many as there are between the ends.
    pub fn whole(self) -> Checked {
        let Accepted {
            patterns,
            levels,
            pans,
        } = self;
        let due = (1 << 32, ALL_LEVELS, ALL_PANS);
        if (patterns, levels, pans) == due {
            Ok(format!("{patterns} patterns: {levels} levels, {pans} pans"))
        } else {
            Err(format!("{self:?}, not {due:?}"))
        }
    }

    pub fn and(self, other: Accepted) -> Accepted {
        Accepted {
            patterns: self.patterns + other.patterns,
            levels: self.levels + other.levels,
            pans: self.pans + other.pans,
        }
    }
}

/// The rules agree on each of these patterns.
pub fn agree(patterns: impl Iterator<Item = u32>) -> Result<Accepted, String> {
    let mut accepted = Accepted::default();
    for bits in patterns {
        let number = f32::from_bits(bits);
        let (level, pan) = (mix::level_bits(bits), mix::pan_bits(bits));
        if level != mix::level_number(number) || pan != mix::pan_number(number) {
            return Err(format!(
                "{bits:08x}: level {level}, pan {pan} by the bits alone"
            ));
        }
        accepted.patterns += 1;
        accepted.levels += u64::from(level);
        accepted.pans += u64::from(pan);
    }
    Ok(accepted)
}

/// The edges with what is up to two patterns beside them, then random ones.
fn samples(mut rng: Rng, count: usize) -> impl Iterator<Item = u32> {
    let edges = EDGES.into_iter();
    let beside =
        edges.flat_map(|edge| (0..5).map(move |more| edge.wrapping_add(more).wrapping_sub(2)));
    beside.chain((0..count).map(move |_| rng.number() as u32))
}

fn sampled(rng: Rng) -> Checked {
    let Accepted {
        patterns,
        levels,
        pans,
    } = agree(samples(rng, SAMPLED))?;
    Ok(format!("{patterns} patterns: {levels} levels, {pans} pans"))
}

/// The library encodes and decodes one send of the pattern, as a level and as a pan.
pub fn called(library: &dyn Library, rng: Rng, count: usize) -> Checked {
    let (mut calls, mut done) = (0, 0);
    for bits in samples(rng, count) {
        for (tag, level, pan) in [(mix::LEVEL, bits, 0), (mix::LEVEL_AND_PAN, 0, bits)] {
            let encode = Call::EncodeMix {
                session: bits.into(),
                tags: vec![tag],
                levels: vec![level],
                pans: vec![pan],
                mix_buffer: vec![0xee; mix::MIX_MAX],
            };
            let session = u64::from(bits).to_le_bytes();
            let (level, pan) = (level.to_le_bytes(), pan.to_le_bytes());
            let decode = Call::DecodeMix {
                mix: [&session[..], &[1, tag], &level, &pan].concat(),
                tags: vec![0xee; mix::SENDS_MAX],
                levels: vec![0; mix::SENDS_MAX],
                pans: vec![0; mix::SENDS_MAX],
            };
            for call in [encode, decode] {
                calls += 1;
                done += usize::from(compare(library, &[], &[], &call)? == 0);
            }
        }
    }
    Ok(format!("{calls} calls, {done} done"))
}

pub fn checks(library: &dyn Library, seed: u64) -> Vec<(String, Checked)> {
    let part = |index: u64| Rng::part(seed ^ 12 << 40, index);
    vec![
        ("float-rules".into(), sampled(part(0))),
        ("floats-in-calls".into(), called(library, part(1), CALLED)),
    ]
}

#[cfg(test)]
mod tests {
    use super::*;
    use crate::library::Reference;

    #[test]
    fn the_rules_agree_and_the_reference_keeps_them() {
        for (name, checked) in checks(&Reference, 1) {
            assert!(checked.is_ok(), "{name}: {checked:?}");
        }
    }

    #[test]
    fn the_ends_by_hand() {
        for (number, level, pan) in [
            (0.0, true, true),
            (-0.0, true, true),
            (1.0, true, true),
            (-1.0, false, true),
            (4.0, true, false),
            (4.000_000_5, false, false),
            (f32::MIN_POSITIVE, true, true),
            (-f32::MIN_POSITIVE, false, true),
            (f32::INFINITY, false, false),
            (f32::NEG_INFINITY, false, false),
            (f32::NAN, false, false),
        ] {
            let bits = number.to_bits();
            assert_eq!((mix::level_bits(bits), mix::pan_bits(bits)), (level, pan));
            assert_eq!(
                (mix::level_number(number), mix::pan_number(number)),
                (level, pan)
            );
        }
    }
}
