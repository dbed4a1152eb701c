//! How often each call answered what, and what was never reached.

use std::collections::BTreeMap;

use crate::answer::Why;
use crate::area;
use crate::calls::Call;
use crate::cast::GOOD_FLAGS;
use crate::mixing;
use crate::record::Record;

/// What the calls answer with: 01's numbers, and those of the requests so far.
pub const NUMBERS: [u32; 18] = [0, 1, 2, 3, 4, 5, 6, 7, 8, 9, 10, 11, 12, 13, 14, 19, 20, 21];

/// How often each call answered each number, and for which test.
#[derive(Clone, Default)]
pub struct Tally {
    numbers: [[u64; NUMBERS.len()]; Call::KINDS.len()],
    tests: BTreeMap<(usize, Option<Why>), u64>,
    /// Answers with any other number.
    strange: u64,
    met: BTreeMap<Met, u64>,
    /// 02, No. 5: what a search for a mix meets.
    searched: BTreeMap<mixing::Met, u64>,
}

/// 02, No. 4: the flags that a call meets under a name that the chip holds.
#[derive(Clone, Copy, PartialEq, Eq, PartialOrd, Ord)]
struct Met {
    /// Of the record that the card holds, if it holds one.
    stored: Option<u32>,
    /// Of the call; none where it reads.
    set: Option<u32>,
}

fn none_or_flags() -> impl Iterator<Item = Option<u32>> {
    std::iter::once(None).chain(GOOD_FLAGS.map(Some))
}

fn column(number: u32) -> Option<usize> {
    NUMBERS.iter().position(|known| *known == number)
}

impl Tally {
    pub fn count(&mut self, kind: usize, number: u32, why: Option<Why>) {
        match column(number) {
            Some(column) => self.numbers[kind][column] += 1,
            None => self.strange += 1,
        }
        *self.tests.entry((kind, why)).or_default() += 1;
    }

    pub fn add(&mut self, other: &Tally) {
        for (row, more) in self.numbers.iter_mut().zip(&other.numbers) {
            for (count, more) in row.iter_mut().zip(more) {
                *count += more;
            }
        }
        for (test, more) in &other.tests {
            *self.tests.entry(*test).or_default() += more;
        }
        self.strange += other.strange;
        for (met, more) in &other.met {
            *self.met.entry(*met).or_default() += more;
        }
        for (met, more) in &other.searched {
            *self.searched.entry(*met).or_default() += more;
        }
    }

    /// Counts a call that reads or sets a name that the chip holds, on sound areas and
    /// over a record in form.
    pub fn meet(&mut self, card: &[u8], chip: &[u8], call: &Call) {
        if let Some(met) = Met::of(card, chip, call) {
            *self.met.entry(met).or_default() += 1;
        }
    }

    /// Counts what a search for a mix meets on the card and in the chip.
    pub fn search(&mut self, card: &[u8], chip: &[u8], call: &Call) {
        for met in mixing::met(card, chip, call) {
            *self.searched.entry(met).or_default() += 1;
        }
    }

    /// How often each was met, one in a line.
    pub fn searched(&self) -> String {
        let lines = self.searched.iter();
        let lines = lines.map(|(met, count)| format!("{count:>12} {met}"));
        lines.collect::<Vec<String>>().join("\n")
    }

    /// What no search has met.
    pub fn searched_gaps(&self) -> Vec<String> {
        let due = mixing::due().into_iter();
        due.filter(|met| !self.searched.contains_key(met))
            .map(|met| met.to_string())
            .collect()
    }

    /// How often such names were read and set, by the flags on the card.
    pub fn met_table(&self) -> String {
        let mut text = format!("{:>12}{:>8}", "", "none");
        for flags in GOOD_FLAGS {
            text += &format!("{flags:>8}");
        }
        for (name, sets) in [("read", false), ("set", true)] {
            text += &format!("\n{name:>12}");
            for stored in none_or_flags() {
                let met = self.met.iter();
                let met = met.filter(|(met, _)| met.stored == stored && met.set.is_some() == sets);
                text += &format!("{:>8}", met.map(|(_, count)| count).sum::<u64>());
            }
        }
        text
    }

    /// What never came under such a name: a read, and a set with each flags, over no
    /// record and over a record with each flags.
    pub fn met_gaps(&self) -> Vec<String> {
        let due =
            none_or_flags().flat_map(|stored| none_or_flags().map(move |set| Met { stored, set }));
        due.filter(|met| !self.met.contains_key(met))
            .map(|met| format!("on the card {:?}, set {:?}", met.stored, met.set))
            .collect()
    }

    pub fn calls(&self) -> u64 {
        self.numbers.iter().flatten().sum::<u64>() + self.strange
    }

    pub fn number(&self, kind: usize, number: u32) -> u64 {
        column(number).map_or(0, |column| self.numbers[kind][column])
    }

    /// How often this test refused the call; none stands for a done one.
    pub fn times(&self, kind: usize, why: Option<Why>) -> u64 {
        self.tests.get(&(kind, why)).copied().unwrap_or(0)
    }

    pub fn table(&self, kinds: &[usize]) -> String {
        let mut text = format!("{:>12}", "");
        for number in NUMBERS {
            text += &format!("{number:>8}");
        }
        for kind in kinds {
            text += &format!("\n{:>12}", Call::KINDS[*kind]);
            for count in self.numbers[*kind] {
                let shown = if count == 0 {
                    "-".into()
                } else {
                    count.to_string()
                };
                text += &format!("{shown:>8}");
            }
        }
        text
    }

    /// Tests of these calls that never refused, or refused though 01 has no such
    /// test for the call.
    pub fn gaps(&self, kinds: &[usize]) -> Vec<String> {
        let mut gaps = Vec::new();
        for kind in kinds {
            let name = Call::KINDS[*kind];
            let mut due: Vec<Option<Why>> = refusals(name).into_iter().map(Some).collect();
            due.push(None);
            for why in &due {
                if !self.tests.contains_key(&(*kind, *why)) {
                    gaps.push(match why {
                        Some(why) => format!("{name} was never refused by {why:?}"),
                        None => format!("{name} was never done"),
                    });
                }
            }
            for (_, why) in self.tests.keys().filter(|(of, _)| of == kind) {
                if !due.contains(why) {
                    gaps.push(format!("{name} answered by {why:?}, which it can't"));
                }
            }
        }
        if self.strange > 0 {
            gaps.push(format!("{} answers with no known number", self.strange));
        }
        gaps
    }

    /// The rarest test of all, to see how thin the coverage is.
    pub fn rarest(&self) -> String {
        match self.tests.iter().min_by_key(|(_, count)| **count) {
            Some(((kind, why), count)) => {
                let why = why.map_or("done".into(), |why| format!("{why:?}"));
                format!("{} {why}, {count} times", Call::KINDS[*kind])
            }
            None => "none".into(),
        }
    }
}

impl Met {
    fn of(card: &[u8], chip: &[u8], call: &Call) -> Option<Met> {
        let set = call.flags();
        let reads = matches!(
            call,
            Call::Get { .. } | Call::Info { .. } | Call::LoadKey { .. }
        );
        let name = call.name().filter(|_| reads || set.is_some())?;
        area::test_lengths(card, chip).ok()?;
        let (card, chip) = area::decode(card, chip).ok()?;
        chip.find(&name)?;
        let stored = match card.find(&name) {
            Some(place) => Some(Record::decode(&place.record)?.flags.bits()),
            None => None,
        };
        Some(Met { stored, set })
    }
}

/// The tests that can refuse a call of this kind, from 01's orders and 02.
fn refusals(kind: &str) -> Vec<Why> {
    use Why::*;
    let areas = [
        CardLength,
        ChipLength,
        CardDamaged,
        ChipDamaged,
        CardOrder,
        ChipOrder,
    ];
    let set = [
        DeviceKeyLength,
        BadFlags,
        NotWellFormed,
        OldWriteOnce,
        NewWriteOnce,
        FlagsDiffer,
        WriteOnceOnChip,
        Downgraded,
        NoPlace,
        NoEntry,
    ];
    let read = [
        DeviceKeyLength,
        NotFound,
        GoneFromCard,
        NotWellFormed,
        CmacWrong,
        EntryAbsent,
        EntryDiffers,
        Downgraded,
    ];
    let tried = read.into_iter().filter(|why| *why != GoneFromCard);
    let tried: Vec<Why> = tried.collect();
    let sends = [MixCount, MixTag, MixLevel, MixPan];
    let mix = [&sends[..], &[MixLength, MixUnused]].concat();
    let handle = [StagingLength, HandleNameLength, HandleDeclared, HandleCount];
    let parts: Vec<&[Why]> = match kind {
        "set" => vec![&areas, &set, &[IvLength, BadName, DataTooLong]],
        "get" => vec![&areas, &read, &[BadName, OffsetBeyondData]],
        "info" => vec![&areas, &read, &[BadName]],
        "remove" => vec![&areas, &[BadName, NotFound, NotWellFormed, OldWriteOnce]],
        "reset" => vec![&[CardLength, ChipLength]],
        "walk" => vec![&areas, &[NameBufferLength, BadPrefix, NotFound]],
        "write" => vec![&[KeyBufferLength, MaterialTooLong]],
        "keep" => vec![&areas, &set, &[IvLength, BadIdentifier, MaterialTooLong]],
        "load" => vec![
            &areas,
            &read,
            &[KeyBufferLength, BadIdentifier, NotAKeyFile],
        ],
        "set_start" => vec![&[IvLength, NameTooLong, DeclaredTooLong]],
        "set_add_data" => vec![&handle, &[ChunkPastDeclared]],
        "set_finalize" => vec![&areas, &set, &handle, &[BadName, DataMissing]],
        "store_mix" => vec![&areas, &set, &mix, &[IvLength, NotAMixName, BadName]],
        // The card holds each name that is tried.
        "find_mix" => vec![&areas, &tried, &mix, &[MixBufferLength, Ambiguous]],
        "encode_mix" => vec![&sends, &[MixBufferLength, LevelsDiffer, PansDiffer]],
        "decode_mix" => vec![&mix, &[TagsLength, LevelsLength, PansLength]],
        _ => panic!("no call of that kind"),
    };
    parts.concat()
}
