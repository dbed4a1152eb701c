//! 02, No. 2: "however the data were divided", a set in chunks answers and stores
//! what one set of the bytes then held would, on the card as it then is.
//!
//! Chunks of every size, empty ones too, come in between refused ones, a
//! `set_finalize` that is too early, and other calls on the same card. In the end
//! `set_finalize` and one set, by the library and by the reference, have to answer
//! one number and leave one card and chip, byte for byte.

use crate::answer::Answer;
use crate::area::{Card, ENTRY, PLACE};
use crate::calls::{self, Call};
use crate::cast::{self, Cast};
use crate::handle::{Handle, HandleBytes, STAGING};
use crate::library::Library;
use crate::record::Record;
use crate::rng::Rng;
use crate::show;
use crate::stories::difference;
use crate::tally::Tally;

/// The numbers that a `set_finalize` has to have met: those of a set without 5,
/// which only a broken handle could bring, and 19 where it was too early.
pub const NUMBERS: [u32; 11] = [0, 1, 2, 3, 4, 7, 8, 9, 10, 12, 19];

struct Division<'a> {
    rng: Rng,
    library: &'a dyn Library,
    tally: &'a mut Tally,
    cast: Cast,
    card: Vec<u8>,
    chip: Vec<u8>,
    /// Of the set that comes in chunks.
    key: Vec<u8>,
    handle: HandleBytes,
    staging: Vec<u8>,
}

/// What went wrong in the division of this stream, if anything did.
pub fn check(mut rng: Rng, library: &dyn Library, tally: &mut Tally) -> Option<String> {
    let cast = Cast::new(&mut rng);
    let (places, entries) = (1 + rng.below(8), 1 + rng.below(8));
    let (mut card, mut chip) = cast::sound_start(&mut rng, &cast, places, entries);
    if rng.percent(10) {
        cast::fill(&mut rng, &cast, &mut card, &mut chip);
    }
    let mut division = Division {
        library,
        tally,
        card: card.encode(),
        chip: chip.encode(),
        key: cast.key.to_vec(),
        handle: rng.array(),
        staging: rng.bytes(STAGING),
        cast,
        rng,
    };
    division.run().err()
}

impl Division<'_> {
    fn run(&mut self) -> Result<(), String> {
        let name = self.name();
        let flags = self.flags(&name);
        let (iv, data) = (self.rng.bytes(8), self.data());
        let before = self.staging.clone();
        let start = Call::SetStart {
            name: name.clone(),
            flags,
            iv: iv.clone(),
            declared: data.len(),
            handle: self.handle,
        };
        let started = self.call(&start, 0)?;
        self.handle = started.handle.try_into().expect("88 bytes");
        let fresh = self.handle;
        self.add_all(&data)?;

        let held = [&data, &before[data.len()..]].concat();
        same("the staging buffer", &held, &self.staging)?;
        let mut handle = Handle::decode(&fresh);
        handle.count = data.len() as u32;
        same("the handle", &handle.encode(), &self.handle)?;
        if self.rng.percent(20) {
            self.change_staging();
        }
        self.spoil();
        let data = self.staging[..data.len()].to_vec();
        self.finalize(Call::Set {
            key: self.key.clone(),
            name,
            flags,
            iv,
            data,
        })
    }

    fn name(&mut self) -> Vec<u8> {
        if self.rng.percent(4) {
            let mut name = cast::hostile_name(&mut self.rng);
            name.truncate(64);
            return name;
        }
        self.rng.pick(&self.cast.names)
    }

    fn flags(&mut self, name: &[u8]) -> u32 {
        if self.rng.percent(4) {
            return cast::wild_flags(&mut self.rng);
        }
        let card = Card::decode(&self.card);
        let place = card.as_ref().and_then(|card| card.find(name));
        let record = place.and_then(|place| Record::decode(&place.record));
        cast::flags(&mut self.rng, record.map(|record| record.flags.bits()))
    }

    fn data(&mut self) -> Vec<u8> {
        if self.rng.percent(50) {
            return cast::data(&mut self.rng);
        }
        let size = self.rng.below(STAGING + 1);
        self.rng.bytes(size)
    }

    /// The library's answer, which has to be the reference's and have this number.
    fn call(&mut self, call: &Call, number: u32) -> Result<Answer, String> {
        let (expected, why) = calls::answer(&self.card, &self.chip, call);
        let got = self.library.call(&self.card, &self.chip, call);
        self.tally.count(call.kind(), got.answer.number, why);
        let different = difference(&expected, &got).or_else(|| {
            (expected.number != number).then(|| format!("{}, not {number}", expected.number))
        });
        match different {
            Some(different) => Err(format!("{}\n    {different}", show::call(call))),
            None => Ok(got.answer),
        }
    }

    /// The data in chunks: all at once, byte by byte, or of any sizes.
    fn add_all(&mut self, data: &[u8]) -> Result<(), String> {
        let most = match self.rng.below(20) {
            0..=2 => data.len(),
            3 => 1,
            _ => 1 + self.rng.below(STAGING),
        };
        let mut added = 0;
        loop {
            if self.rng.percent(30) {
                self.between(&data[added..])?;
            }
            if added == data.len() {
                return Ok(());
            }
            let all = most.min(data.len() - added);
            let size = match self.rng.below(10) {
                0 => 0,
                1..=3 => all,
                _ => 1 + self.rng.below(all),
            };
            let chunk = &data[added..added + size];
            self.add(chunk)?;
            added += size;
        }
    }

    fn add(&mut self, chunk: &[u8]) -> Result<(), String> {
        let call = self.add_data(chunk);
        let answer = self.call(&call, 0)?;
        self.handle = answer.handle.try_into().expect("88 bytes");
        self.staging = answer.output;
        Ok(())
    }

    fn add_data(&self, chunk: &[u8]) -> Call {
        Call::SetAddData {
            handle: self.handle,
            staging: self.staging.clone(),
            chunk: chunk.to_vec(),
        }
    }

    /// Something that may change nothing of the set, or only card and chip.
    fn between(&mut self, rest: &[u8]) -> Result<(), String> {
        match self.rng.below(6) {
            0 | 1 => {
                let more = self.rng.pick(&[1, 1, 2, 480, 1000]);
                let chunk = [rest, &self.rng.bytes(more)].concat();
                self.refused(self.add_data(&chunk), 19)
            }
            2 => {
                let mut call = self.add_data(rest);
                if let Call::SetAddData { staging, .. } = &mut call {
                    let length = self.rng.pick(&[0, 479, 481, 960]);
                    staging.resize(length, 0xee);
                }
                self.refused(call, 1)
            }
            3 => {
                let mut broken = Handle::decode(&self.handle);
                match self.rng.below(3) {
                    0 => broken.name_length = self.rng.pick(&[65, u32::MAX]),
                    1 => broken.declared = self.rng.pick(&[481, u32::MAX]),
                    _ => broken.count = broken.declared + 1,
                }
                let mut call = self.add_data(&rest[..rest.len().min(1)]);
                if let Call::SetAddData { handle, .. } = &mut call {
                    *handle = broken.encode();
                }
                self.refused(call, 19)
            }
            4 if !rest.is_empty() => {
                let finalize = self.set_finalize();
                self.refused(finalize, 19)
            }
            _ => self.another_call(),
        }
    }

    /// The call has this number, and leaves handle, staging buffer, card and chip.
    fn refused(&mut self, call: Call, number: u32) -> Result<(), String> {
        let answer = self.call(&call, number)?;
        same("a refused call's card", &self.card, &answer.card)?;
        same("a refused call's chip", &self.chip, &answer.chip)?;
        same("a refused call's handle", call.handle(), &answer.handle)?;
        same(
            "a refused call's staging buffer",
            call.output(),
            &answer.output,
        )
    }

    /// Card and chip go on meanwhile, the name of this set too.
    fn another_call(&mut self) -> Result<(), String> {
        let name = self.rng.pick(&self.cast.names);
        let call = if self.rng.percent(60) {
            Call::Set {
                key: self.key.clone(),
                flags: self.flags(&name),
                name,
                iv: self.rng.bytes(8),
                data: cast::data(&mut self.rng),
            }
        } else {
            Call::Remove { name }
        };
        let number = calls::answer(&self.card, &self.chip, &call).0.number;
        let answer = self.call(&call, number)?;
        (self.card, self.chip) = (answer.card, answer.chip);
        Ok(())
    }

    /// The caller's bytes are the caller's: the bytes then held count.
    fn change_staging(&mut self) {
        for _ in 0..1 + self.rng.below(4) {
            let at = self.rng.below(STAGING);
            self.staging[at] ^= 1 << self.rng.below(8);
        }
    }

    /// At times a damaged card or chip, or one out of order, or a wrong length.
    fn spoil(&mut self) {
        match self.rng.below(40) {
            0 => self.card[583] ^= 0x80,
            1 => self.chip[0] ^= 0x80,
            5 => self.card.rotate_right(PLACE),
            6 => self.chip.rotate_right(ENTRY),
            2 => self.card.push(0),
            3 => self.chip.truncate(81),
            4 => self.key = self.rng.bytes(15),
            _ => {}
        }
    }

    fn set_finalize(&self) -> Call {
        Call::SetFinalize {
            key: self.key.clone(),
            handle: self.handle,
            staging: self.staging.clone(),
        }
    }

    /// The end, beside one set of the bytes then held.
    fn finalize(&mut self, set: Call) -> Result<(), String> {
        let number = calls::answer(&self.card, &self.chip, &set).0.number;
        let finalized = self.call(&self.set_finalize(), number)?;
        let at_once = self.call(&set, number)?;
        same("the card", &at_once.card, &finalized.card)?;
        same("the chip", &at_once.chip, &finalized.chip)
    }
}

fn same(what: &str, expected: &[u8], got: &[u8]) -> Result<(), String> {
    show::first_difference(what, expected, got).map_or(Ok(()), Err)
}

/// Numbers that no `set_finalize` answered, and other ones that one did.
pub fn gaps(tally: &Tally) -> Vec<String> {
    let numbers = crate::tally::NUMBERS.into_iter();
    numbers
        .filter(|number| {
            NUMBERS.contains(number) != (tally.number(Call::SET_FINALIZE, *number) > 0)
        })
        .map(|number| format!("{} {number}", Call::KINDS[Call::SET_FINALIZE]))
        .collect()
}

#[cfg(test)]
mod tests {
    use super::*;
    use crate::library::{Faulty, Observed, Reference};

    #[test]
    fn the_reference_does_not_mind_the_division() {
        let mut tally = Tally::default();
        for index in 0..1500 {
            assert_eq!(check(Rng::part(6, index), &Reference, &mut tally), None);
        }
        assert_eq!(gaps(&tally), Vec::<String>::new());
    }

    fn told(fault: fn(&Call, &mut Observed)) -> Option<String> {
        let library = Faulty(fault);
        (0..200).find_map(|index| check(Rng::part(7, index), &library, &mut Tally::default()))
    }

    #[test]
    fn what_minds_the_division_is_told() {
        let twice = told(|call, seen| {
            if matches!(call, Call::SetAddData { .. }) && seen.answer.number == 0 {
                seen.answer.handle[84] ^= 1;
            }
        });
        assert!(twice
            .expect("told")
            .contains("handle differs first at byte 84"));
        let card = told(|call, seen| {
            if matches!(call, Call::SetFinalize { .. }) && seen.answer.number == 0 {
                seen.answer.card[100] ^= 1;
            }
        });
        assert!(card
            .expect("told")
            .contains("card differs first at byte 100"));
        let stray = told(|call, seen| {
            if matches!(call, Call::SetFinalize { .. }) {
                seen.strays.push("staging buffer was written".into());
            }
        });
        assert!(stray.expect("told").contains("staging buffer was written"));
    }
}
