//! One chip and very many cards: the old card is refused, and so is every other one
//! that the chip does not know (demand 2, with 02, No. 4).
//!
//! The library's own sets make the chip and its cards, old and new. Then someone has
//! the cards and not the chip. A get or info of a name that the chip holds may answer
//! 0 only for a record with flag 8, of right CMAC, which is the chip's.

use crate::answer::Why;
use crate::area::{Card, Chip, Entry, ENTRY, PLACE};
use crate::calls::{answer, Call};
use crate::cast::{self, Cast};
use crate::library::{Library, Observed};
use crate::record::Record;
use crate::rng::Rng;
use crate::show;
use crate::stories::{difference, same_answer};
use crate::tally::Tally;
use crate::tamper::Tamperer;

/// The flags of the names that the chip holds, each name's in turn.
const PROTECTED: [u32; 5] = [12, 14, 13, 15, 14];
/// How often each is set; a write-once name only the first time.
const ROUNDS: usize = 4;
/// The calls that are tried.
pub const KINDS: [usize; 2] = [1, 2];

/// A chip, and every card that it has had, oldest first.
pub struct World {
    cast: Cast,
    chip: Vec<u8>,
    entries: Vec<Entry>,
    past: Vec<(Vec<u8>, Vec<u8>)>,
}

impl World {
    /// All by accepted sets; beside the protected names one without entry, which some
    /// cards hold and some do not.
    pub fn new(library: &dyn Library, mut rng: Rng) -> Result<World, String> {
        let mut cast = Cast::new(&mut rng);
        while cast.names.len() <= PROTECTED.len() {
            cast = Cast::new(&mut rng);
        }
        let slots = PROTECTED.len() + 2;
        let mut past = vec![(vec![0; slots * PLACE], vec![0; slots * ENTRY])];
        for round in 0..ROUNDS {
            let flags = PROTECTED.into_iter().chain([4]);
            for (name, flags) in cast.names.iter().zip(flags) {
                if round == 0 || flags & 1 == 0 {
                    let (card, chip) = past.last().expect("not empty");
                    let set = Call::Set {
                        key: cast.key.to_vec(),
                        name: name.clone(),
                        flags,
                        iv: rng.bytes(8),
                        data: cast::data(&mut rng),
                    };
                    past.push(done(library, card, chip, &set)?);
                }
            }
        }
        let chip = past[past.len() - 1].1.clone();
        let area = Chip::decode(&chip).ok_or("the sets left a damaged chip")?;
        let entries = area.used().map(|(_, entry)| entry.clone()).collect();
        Ok(World {
            cast,
            chip,
            entries,
            past,
        })
    }

    /// A card from before or blank or of random bytes, mostly changed.
    fn card(&self, rng: &mut Rng) -> Vec<u8> {
        let newest = self.past.len() - 1;
        let at = match rng.below(100) {
            0 => return rng.bytes(self.past[0].0.len()),
            1 => 0,
            2..=39 => rng.below(newest),
            _ => newest,
        };
        let mut card = self.past[at].0.clone();
        for _ in 0..rng.below(8) {
            let mut forger = Tamperer {
                rng,
                cast: &self.cast,
                past: &self.past,
            };
            forger.forge(&mut card, &self.chip);
        }
        card
    }

    fn reads(&self, rng: &mut Rng, name: &[u8]) -> [Call; 2] {
        let (key, name) = (self.cast.key.to_vec(), name.to_vec());
        let size = rng.pick(&cast::DATA_SIZES);
        let get = Call::Get {
            key: key.clone(),
            name: name.clone(),
            offset: cast::offset(rng, size),
            output: cast::output(rng, size),
        };
        [get, Call::Info { key, name }]
    }

    /// Whether the card's record of the entry's name is the one that the chip knows.
    fn known(&self, card: &[u8], entry: &Entry) -> bool {
        let card = Card::decode(card);
        let place = card.as_ref().and_then(|card| card.find(&entry.name));
        let record = place.and_then(|place| Record::decode(&place.record));
        record.map_or(false, |record| {
            record.flags.replay_protection()
                && record.authentic(&self.cast.key, &entry.name)
                && record.cmac == entry.cmac
        })
    }

    /// What is wrong with the library's answers on the card of this stream: first by
    /// demand 2 alone, then beside the reference.
    pub fn check(&self, mut rng: Rng, library: &dyn Library, tally: &mut Tally) -> Option<String> {
        let card = self.card(&mut rng);
        self.entries.iter().find_map(|entry| {
            let mut calls = self.reads(&mut rng, &entry.name).into_iter();
            calls.find_map(|call| {
                let (expected, why) = answer(&card, &self.chip, &call);
                let got = library.call(&card, &self.chip, &call);
                tally.count(call.kind(), got.answer.number, why);
                let wrong = self
                    .served(&card, entry, &got)
                    .or_else(|| difference(&expected, &got));
                wrong.map(|wrong| tell(&wrong, &card, &self.chip, &call))
            })
        })
    }

    fn served(&self, card: &[u8], entry: &Entry, got: &Observed) -> Option<String> {
        let wrong = got.answer.number == 0 && !self.known(card, entry);
        wrong.then(|| "a record was served that the chip does not know".into())
    }

    /// How many names each card is asked for.
    pub fn names(&self) -> usize {
        self.entries.len()
    }
}

/// Card and chip after a call that has to be accepted, which are the reference's.
fn done(
    library: &dyn Library,
    card: &[u8],
    chip: &[u8],
    call: &Call,
) -> Result<(Vec<u8>, Vec<u8>), String> {
    let answer = same_answer(library, card, chip, call)?;
    match answer.number {
        0 => Ok((answer.card, answer.chip)),
        number => Err(format!("{number} to {}", show::call(call))),
    }
}

fn tell(wrong: &str, card: &[u8], chip: &[u8], call: &Call) -> String {
    format!(
        "{wrong}\n    {}\n    card {}\n    chip {}",
        show::call(call),
        show::buffer(card),
        show::buffer(chip)
    )
}

/// What the cards have to bring: reads that are accepted, and each reason to refuse one.
const DUE: [Option<Why>; 8] = [
    None,
    Some(Why::CardDamaged),
    Some(Why::CardOrder),
    Some(Why::GoneFromCard),
    Some(Why::NotWellFormed),
    Some(Why::CmacWrong),
    Some(Why::EntryDiffers),
    Some(Why::Downgraded),
];

/// What no card brought.
pub fn gaps(tally: &Tally) -> Vec<String> {
    let due = DUE
        .into_iter()
        .flat_map(|why| KINDS.map(|kind| (kind, why)));
    due.filter(|(kind, why)| tally.times(*kind, *why) == 0)
        .map(|(kind, why)| format!("{} {why:?}", Call::KINDS[kind]))
        .collect()
}

/// How many of the cards were damaged, and of the reads on the others how many were
/// accepted, and how many met a record that disowned its protection.
pub fn summary(tally: &Tally, names: usize) -> String {
    let times = |why| -> u64 { KINDS.iter().map(|kind| tally.times(*kind, why)).sum() };
    let reads = (KINDS.len() * names) as u64;
    format!(
        "{} damaged, {} reads accepted, {} of downgraded records refused",
        (times(Some(Why::CardDamaged)) + times(Some(Why::CardOrder))) / reads,
        times(None),
        times(Some(Why::Downgraded))
    )
}

#[cfg(test)]
mod tests {
    use super::*;
    use crate::library::{Faulty, Reference};

    const CARDS: u64 = 2000;

    fn told(library: &dyn Library, tally: &mut Tally) -> Option<String> {
        let world = World::new(library, Rng::new(1)).expect("accepted sets");
        assert_eq!(world.names(), PROTECTED.len());
        (0..CARDS).find_map(|index| world.check(Rng::part(1, index), library, tally))
    }

    #[test]
    fn the_reference_refuses_old_cards() {
        let mut tally = Tally::default();
        assert_eq!(told(&Reference, &mut tally), None);
        assert_eq!(gaps(&tally), Vec::<String>::new());
        assert_eq!(tally.calls(), CARDS * 10);
        // Cards that are nearly all of one kind would try next to nothing.
        for why in DUE {
            let times = KINDS.map(|kind| tally.times(kind, why));
            assert!(
                times.iter().all(|times| *times >= CARDS / 20),
                "{why:?}: {times:?}"
            );
        }
    }

    #[test]
    fn a_chip_that_sets_do_not_write_is_told() {
        let forgetful = Faulty(|_, seen| seen.answer.chip.fill(0));
        let why = World::new(&forgetful, Rng::new(1)).err().expect("told");
        assert!(why.starts_with("chip differs first at byte 0"), "{why}");
    }

    /// Serves what it should refuse as rollback.
    fn serve(call: &Call, seen: &mut Observed) {
        if KINDS.contains(&call.kind()) && seen.answer.number == 12 {
            seen.answer.number = 0;
        }
    }

    #[test]
    fn a_record_that_the_chip_does_not_know_is_told_when_served() {
        let why = told(&Faulty(serve), &mut Tally::default()).expect("told");
        assert!(why.starts_with("a record was served"), "{why}");
    }

    #[test]
    fn a_wrong_answer_beside_the_reference_is_told() {
        let leaky = Faulty(|_, seen| {
            if seen.answer.number == 12 && !seen.answer.output.is_empty() {
                seen.answer.output[0] ^= 1;
            }
        });
        let why = told(&leaky, &mut Tally::default()).expect("told");
        assert!(why.starts_with("output differs first at byte 0"), "{why}");
    }
}
