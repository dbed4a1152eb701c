//! Someone with card and chip in hand: flips, swaps, moves, damage in each way of
//! 01, and things from before put back. Who knows the order of 02, No. 7 keeps it, so
//! that what is planted isn't damage for its place alone.

use std::ops::Range;

use crate::area::{good_name, Entry, Place, Slot, ENTRY, NAME_MAX, PLACE};
use crate::cast::{self, out_of_form, Cast, BAD_BYTES};
use crate::record::RECORD_MAX;
use crate::rng::Rng;

/// Good flags without replay protection.
const UNPROTECTED: [u32; 8] = [0, 1, 2, 3, 4, 5, 6, 7];

pub struct Tamperer<'a> {
    pub rng: &'a mut Rng,
    pub cast: &'a Cast,
    /// Card and chip before each step so far.
    pub past: &'a [(Vec<u8>, Vec<u8>)],
}

impl Tamperer<'_> {
    /// What is done, and the card and chip after it. Both are sound before.
    pub fn tamper(
        &mut self,
        card_before: &[u8],
        chip_before: &[u8],
    ) -> (&'static str, Vec<u8>, Vec<u8>) {
        let (mut card, mut chip) = (card_before.to_vec(), chip_before.to_vec());
        let what = match self.rng.below(114) {
            0..=72 => self.tamper_card(&mut card, &chip),
            73..=103 => self.tamper_chip(&mut chip),
            _ => self.put_back(&mut card, &mut chip),
        };
        (what, card, chip)
    }

    fn tamper_card(&mut self, card: &mut Vec<u8>, chip: &[u8]) -> &'static str {
        match self.rng.below(73) {
            0..=4 => {
                flip(self.rng, card);
                "a bit of the card flips"
            }
            5..=16 => self.flip_in_record(card),
            17..=26 => self.misshape_place(card),
            27..=36 => self.change_field(card),
            37..=40 => {
                self.take_out(card, PLACE);
                "a place is taken out"
            }
            41 => {
                self.empty(card, PLACE);
                "a place is emptied"
            }
            42..=43 => {
                self.swap(card, PLACE);
                "two places are swapped"
            }
            44 => {
                self.disorder(card, PLACE);
                "the places are in another order"
            }
            45..=47 => {
                self.copy(card, PLACE);
                "a place is copied over another"
            }
            48..=51 => self.move_record(card),
            52..=54 => self.rename(card),
            55..=58 => {
                resize(self.rng, card, PLACE);
                "the card has another length"
            }
            _ => {
                self.plant(card, chip, &UNPROTECTED);
                "a record without replay protection is planted"
            }
        }
    }

    fn tamper_chip(&mut self, chip: &mut Vec<u8>) -> &'static str {
        match self.rng.below(31) {
            0..=3 => {
                flip(self.rng, chip);
                "a bit of the chip flips"
            }
            4..=8 => self.flip_in_entry(chip),
            9..=16 => self.misshape_entry(chip),
            17..=20 => {
                self.take_out(chip, ENTRY);
                "an entry is taken out"
            }
            21 => {
                self.empty(chip, ENTRY);
                "an entry is emptied"
            }
            22..=23 => {
                self.swap(chip, ENTRY);
                "two entries are swapped"
            }
            24 => {
                self.disorder(chip, ENTRY);
                "the entries are in another order"
            }
            25..=26 => {
                self.copy(chip, ENTRY);
                "an entry is copied over another"
            }
            _ => {
                resize(self.rng, chip, ENTRY);
                "the chip has another length"
            }
        }
    }

    /// What someone can do who has the card and old copies of it, and not the chip.
    pub fn forge(&mut self, card: &mut [u8], chip: &[u8]) {
        match self.rng.below(100) {
            0..=17 => self.plant(card, chip, &cast::GOOD_FLAGS),
            18..=32 => self.plant(card, chip, &UNPROTECTED),
            33..=37 => self.paste_cmac(card, chip),
            38..=41 => self.swap_cmacs(card),
            42..=57 => {
                let field = self.field(card);
                flip(self.rng, &mut card[field]);
            }
            58..=63 => {
                let field = self.field(card);
                let random = self.rng.bytes(field.len());
                card[field].copy_from_slice(&random);
            }
            64..=68 => _ = self.change_field(card),
            69..=72 => _ = self.move_record(card),
            73..=79 => self.take_out(card, PLACE),
            80 => self.empty(card, PLACE),
            81 => self.swap(card, PLACE),
            82 => self.disorder(card, PLACE),
            83 => self.copy(card, PLACE),
            84..=85 => _ = self.rename(card),
            86..=97 => self.old_place(card),
            _ => _ = self.misshape_place(card),
        }
    }

    /// A record of these flags, which no set has made, under a name that the chip
    /// holds; under none where it holds none.
    fn plant(&mut self, card: &mut [u8], chip: &[u8], flags: &[u32]) {
        let at = self.used_slot(chip, ENTRY);
        let entry = Entry::read(&chip[at..at + ENTRY]);
        if let Some(Entry { name, .. }) = entry.filter(|entry| good_name(&entry.name)) {
            let keys = [self.cast.key, self.cast.other_key];
            let key = keys[usize::from(self.rng.percent(15))];
            let flags = self.rng.pick(flags);
            let record = cast::sealed(self.rng, self.cast, &key, &name, flags).encode();
            self.put(card, PLACE, &Place { name, record }.encode());
        }
    }

    /// The slot comes to stand where its name stands, else in a free one, else in any;
    /// then mostly where it belongs.
    fn put(&mut self, area: &mut [u8], size: usize, bytes: &[u8]) {
        let mut slots = area.chunks_exact(size);
        let own = slots.position(|slot| slot[0] != 0 && name_of(slot) == name_of(bytes));
        let free = || area.chunks_exact(size).position(|slot| slot[0] == 0);
        let at = own.or_else(free).map(|at| at * size);
        let at = at.unwrap_or_else(|| slot(self.rng, area, size));
        area[at..at + size].copy_from_slice(bytes);
        self.mostly_settle(area, size);
    }

    fn mostly_settle(&mut self, area: &mut [u8], size: usize) {
        if self.rng.percent(90) {
            settle(area, size);
        }
    }

    /// The CMAC that the chip has comes to stand in the record of its name.
    fn paste_cmac(&mut self, card: &mut [u8], chip: &[u8]) {
        let at = self.used_slot(chip, ENTRY);
        let entry = Entry::read(&chip[at..at + ENTRY]);
        let found = entry.and_then(|entry| Some((place_of(card, &entry.name)?, entry.cmac)));
        if let Some((at, cmac)) = found {
            let stored = cmac_at(card, at);
            card[stored].copy_from_slice(&cmac);
        }
    }

    fn swap_cmacs(&mut self, card: &mut [u8]) {
        let (a, b) = (self.used_slot(card, PLACE), self.used_slot(card, PLACE));
        let (a, b) = (cmac_at(card, a), cmac_at(card, b));
        for (a, b) in a.zip(b) {
            card.swap(a, b);
        }
    }

    /// Where a field of a record stands: sizes, revision, flags, IV, data, CMAC.
    fn field(&mut self, card: &[u8]) -> Range<usize> {
        let at = self.used_slot(card, PLACE);
        let cmac = cmac_at(card, at);
        let ends = [0, 2, 4, 8, 12, 20].map(|end| at + 68 + end);
        let fields = [
            ends[0]..ends[1],
            ends[1]..ends[2],
            ends[2]..ends[3],
            ends[3]..ends[4],
            ends[3]..ends[3] + 1,
            ends[4]..ends[5],
            ends[5]..cmac.start.max(ends[5] + 1),
            cmac.clone(),
            cmac,
        ];
        self.rng.pick(&fields)
    }

    /// A place as some old card had it.
    fn old_place(&mut self, card: &mut [u8]) {
        let (old, _) = self.rng.pick(self.past);
        let at = self.used_slot(&old, PLACE);
        self.put(card, PLACE, &old[at..at + PLACE]);
    }

    fn flip_in_record(&mut self, card: &mut [u8]) -> &'static str {
        let at = self.used_slot(card, PLACE);
        let place = &mut card[at..at + PLACE];
        let length = usize::from(u16::from_le_bytes([place[2], place[3]]));
        flip(self.rng, &mut place[68..68 + length.max(1)]);
        "a bit of a record flips"
    }

    fn flip_in_entry(&mut self, chip: &mut [u8]) -> &'static str {
        let at = self.used_slot(chip, ENTRY);
        flip(self.rng, &mut chip[at + 66..at + ENTRY]);
        "a bit of an entry's CMAC flips"
    }

    fn change_field(&mut self, card: &mut [u8]) -> &'static str {
        let at = self.used_slot(card, PLACE);
        if let Some(mut place) = Place::read(&card[at..at + PLACE]) {
            place.record = out_of_form(self.rng, place.record);
            card[at..at + PLACE].copy_from_slice(&place.encode());
        }
        "a record's field is changed"
    }

    /// A hole, but for the last of the used ones.
    fn empty(&mut self, area: &mut [u8], size: usize) {
        let at = self.used_slot(area, size);
        area[at..at + size].fill(0);
    }

    fn take_out(&mut self, area: &mut [u8], size: usize) {
        self.empty(area, size);
        self.mostly_settle(area, size);
    }

    /// Used ones or free ones.
    fn swap(&mut self, area: &mut [u8], size: usize) {
        let (a, b) = (slot(self.rng, area, size), slot(self.rng, area, size));
        for i in 0..size {
            area.swap(a + i, b + i);
        }
    }

    /// All of them, or the used ones, the other way round; or the first goes behind the
    /// others, or the last before them.
    fn disorder(&mut self, area: &mut [u8], size: usize) {
        let mut slots: Vec<Vec<u8>> = area.chunks_exact(size).map(<[u8]>::to_vec).collect();
        let used = slots.iter().filter(|slot| slot[0] != 0).count();
        match self.rng.below(4) {
            0 => slots.reverse(),
            1 => slots[..used].reverse(),
            2 => slots[..used].rotate_left(usize::from(used > 0)),
            _ => slots.rotate_right(1),
        }
        area.copy_from_slice(&slots.concat());
    }

    /// So that one name stands twice, side by side or not.
    fn copy(&mut self, area: &mut [u8], size: usize) {
        let from = self.used_slot(area, size);
        let to = slot(self.rng, area, size);
        area.copy_within(from..from + size, to);
        if self.rng.percent(50) {
            settle(area, size);
        }
    }

    fn move_record(&mut self, card: &mut [u8]) -> &'static str {
        // The state byte is left: under a free place this is damage.
        let (from, to) = (self.used_slot(card, PLACE), self.used_slot(card, PLACE));
        card.copy_within(from + 2..from + 4, to + 2);
        card.copy_within(from + 68..from + PLACE, to + 68);
        "a record is moved under another name"
    }

    fn rename(&mut self, card: &mut [u8]) -> &'static str {
        let name = self.rng.pick(&self.cast.names);
        let at = self.used_slot(card, PLACE);
        if let Some(place) = Place::read(&card[at..at + PLACE]) {
            card[at..at + PLACE].copy_from_slice(&Place { name, ..place }.encode());
            self.mostly_settle(card, PLACE);
        }
        "a place is renamed"
    }

    /// Where a used place or entry starts; any where none is used.
    fn used_slot(&mut self, area: &[u8], size: usize) -> usize {
        let used: Vec<usize> = (0..area.len())
            .step_by(size)
            .filter(|at| area[*at] != 0)
            .collect();
        if used.is_empty() {
            slot(self.rng, area, size)
        } else {
            self.rng.pick(&used)
        }
    }

    /// One field of a place made wrong, in each way of 01.
    fn misshape_place(&mut self, card: &mut [u8]) -> &'static str {
        let start = self.used_slot(card, PLACE);
        let place = &mut card[start..start + PLACE];
        let name_length = usize::from(place[1]).min(NAME_MAX);
        let length = u16::from_le_bytes([place[2], place[3]]);
        let rng = &mut *self.rng;
        match rng.below(8) {
            0 => {
                place[0] = rng.pick(&[0, 2, 0x81, 0xff]);
                "a place's state byte is wrong"
            }
            1 => {
                place[1] = rng.pick(&[0, 65, 255, name_length as u8 ^ 1, name_length as u8 + 1]);
                "a place's name length is wrong"
            }
            2 | 3 => {
                // The length may be any by now: others have been at the card.
                let longer = length.wrapping_add(1);
                let lengths = [517, 0xffff, 0x0204 ^ 0x0100, length ^ 1, longer, 35, 0];
                place[2..4].copy_from_slice(&rng.pick(&lengths).to_le_bytes());
                "a place's record length is wrong"
            }
            4 => {
                place[4 + rng.below(name_length.max(1))] = rng.pick(&BAD_BYTES);
                "a place's name has a bad byte"
            }
            5 => {
                place[4 + name_length.min(63) + rng.below(64 - name_length.min(63))] = b'x';
                "a place's name is not zero filled"
            }
            6 => {
                let end = 68 + usize::from(length).min(RECORD_MAX - 1);
                let at = end + rng.below(PLACE - end);
                place[rng.pick(&[end, at, PLACE - 1])] ^= 1;
                "a place's record is not zero filled"
            }
            _ => {
                let at = slot(rng, card, PLACE) + rng.below(PLACE);
                card[at] = rng.pick(&[1, 0x61, 0xff]);
                "a byte of some place is set"
            }
        }
    }

    fn misshape_entry(&mut self, chip: &mut [u8]) -> &'static str {
        let start = self.used_slot(chip, ENTRY);
        let entry = &mut chip[start..start + ENTRY];
        let name_length = usize::from(entry[1]).min(NAME_MAX);
        let rng = &mut *self.rng;
        match rng.below(5) {
            0 => {
                entry[0] = rng.pick(&[0, 2, 0x81, 0xff]);
                "an entry's state byte is wrong"
            }
            1 => {
                entry[1] = rng.pick(&[0, 65, 255, name_length as u8 ^ 1, name_length as u8 + 1]);
                "an entry's name length is wrong"
            }
            2 => {
                entry[2 + rng.below(name_length.max(1))] = rng.pick(&BAD_BYTES);
                "an entry's name has a bad byte"
            }
            3 => {
                entry[2 + name_length.min(63) + rng.below(64 - name_length.min(63))] = b'x';
                "an entry's name is not zero filled"
            }
            _ => {
                let at = slot(rng, chip, ENTRY) + rng.below(ENTRY);
                chip[at] = rng.pick(&[1, 0x61, 0xff]);
                "a byte of some entry is set"
            }
        }
    }

    /// The night of the old card: something from before is put back.
    fn put_back(&mut self, card: &mut Vec<u8>, chip: &mut Vec<u8>) -> &'static str {
        if self.past.is_empty() {
            return "nothing is there to put back";
        }
        let (old_card, old_chip) = self.rng.pick(self.past);
        match self.rng.below(4) {
            0 => {
                *card = old_card;
                "an old card is put back"
            }
            1 => {
                *chip = old_chip;
                "an old chip is put back"
            }
            2 if old_card.len() == card.len() => {
                let at = self.used_slot(&old_card, PLACE);
                self.put(card, PLACE, &old_card[at..at + PLACE]);
                "an old place is put back"
            }
            3 if old_chip.len() == chip.len() => {
                let at = self.used_slot(&old_chip, ENTRY);
                self.put(chip, ENTRY, &old_chip[at..at + ENTRY]);
                "an old entry is put back"
            }
            _ => {
                (*card, *chip) = (old_card, old_chip);
                "an old card and chip are put back"
            }
        }
    }
}

/// Where the place of this name starts.
fn place_of(card: &[u8], name: &[u8]) -> Option<usize> {
    let named = |place: &[u8]| Place::read(place).map_or(false, |place| place.name == name);
    Some(card.chunks_exact(PLACE).position(named)? * PLACE)
}

/// The name of a place or an entry, with what its length makes of it.
fn name_of(slot: &[u8]) -> &[u8] {
    let at = if slot.len() == PLACE { 4 } else { 2 };
    &slot[at..at + usize::from(slot[1]).min(NAME_MAX)]
}

/// The used ones to the front, in the order of their names.
fn settle(area: &mut [u8], size: usize) {
    let mut slots: Vec<Vec<u8>> = area.chunks_exact(size).map(<[u8]>::to_vec).collect();
    slots.sort_by_key(|slot| (slot[0] == 0, name_of(slot).to_vec()));
    area.copy_from_slice(&slots.concat());
}

/// Where the CMAC of the record stands, as the place that starts there tells its length.
fn cmac_at(card: &[u8], at: usize) -> Range<usize> {
    let length = usize::from(u16::from_le_bytes([card[at + 2], card[at + 3]]));
    let end = at + 68 + length.clamp(36, RECORD_MAX);
    end - 16..end
}

fn slot(rng: &mut Rng, area: &[u8], size: usize) -> usize {
    rng.below((area.len() / size).max(1)) * size
}

fn flip(rng: &mut Rng, bytes: &mut [u8]) {
    let at = rng.below(bytes.len());
    bytes[at] ^= 1 << rng.below(8);
}

fn resize(rng: &mut Rng, area: &mut Vec<u8>, size: usize) {
    let now = area.len();
    let lengths = [
        0,
        1,
        size - 1,
        now - 1,
        now + 1,
        now + size,
        now - size,
        64 * size,
        65 * size,
    ];
    area.resize(rng.pick(&lengths), 0);
}

#[cfg(test)]
mod tests {
    use std::collections::BTreeMap;

    use super::*;
    use crate::area::{Area, Card, Chip};

    /// What is wrong with the order of these slots, if each by itself is well shaped.
    fn disorder<S: Slot>(area: &[u8]) -> Option<&'static str> {
        let slots: Vec<&[u8]> = area.chunks_exact(S::SIZE).collect();
        if area.len() % S::SIZE != 0 || slots.iter().any(|slot| Area::<S>::decode(slot).is_none()) {
            return None;
        }
        let used = slots.iter().filter(|slot| slot[0] != 0);
        let names: Vec<&[u8]> = used.map(|slot| name_of(slot)).collect();
        let mut sorted = names.clone();
        sorted.sort_unstable();
        let moved = names.iter().zip(&sorted).filter(|(a, b)| a != b).count();
        let hole = slots[..names.len()].iter().any(|slot| slot[0] == 0);
        if sorted.windows(2).any(|pair| pair[0] == pair[1]) {
            return Some(if moved == 0 {
                "twice, side by side"
            } else {
                "twice"
            });
        }
        match moved {
            0 => hole.then_some("a hole"),
            _ if hole => Some("another"),
            _ if names.len() > 2 && names.iter().rev().eq(&sorted) => Some("reversed"),
            2 => Some("two swapped"),
            _ => Some("another"),
        }
    }

    #[test]
    fn every_disorder_comes_on_card_and_chip_alone() {
        let mut rng = Rng::new(1);
        let cast = Cast::new(&mut rng);
        let mut seen: BTreeMap<(&str, &str), usize> = BTreeMap::new();
        for _ in 0..20_000 {
            let (mut card, mut chip) = cast::sound_start(&mut rng, &cast, 5, 5);
            if rng.percent(50) {
                cast::fill(&mut rng, &cast, &mut card, &mut chip);
            }
            let (card, chip) = (card.encode(), chip.encode());
            let past = [(card.clone(), chip.clone())];
            let mut tamperer = Tamperer {
                rng: &mut rng,
                cast: &cast,
                past: &past,
            };
            let (_, new_card, new_chip) = tamperer.tamper(&card, &chip);
            let found = match (disorder::<Place>(&new_card), disorder::<Entry>(&new_chip)) {
                (Some(kind), _) if Chip::decode(&new_chip).is_some() => ("card", kind),
                (_, Some(kind)) if Card::decode(&new_card).is_some() => ("chip", kind),
                _ => continue,
            };
            *seen.entry(found).or_default() += 1;
        }
        for area in ["card", "chip"] {
            for kind in [
                "a hole",
                "two swapped",
                "reversed",
                "twice",
                "twice, side by side",
                "another",
            ] {
                let times = seen.get(&(area, kind)).copied().unwrap_or(0);
                assert!(times >= 20, "{area}, {kind}: {times}");
            }
        }
    }

    /// A card that was forged before may have any bytes, also in its lengths.
    #[test]
    fn any_card_can_be_forged_again() {
        let mut rng = Rng::new(1);
        let cast = Cast::new(&mut rng);
        let (card, chip) = cast::sound_start(&mut rng, &cast, 3, 3);
        let past = [(card.encode(), chip.encode())];
        let (mut sound, mut damaged) = (0, 0);
        for round in 0..2000 {
            let mut card = match round % 2 {
                0 => past[0].0.clone(),
                _ => rng.bytes(3 * PLACE),
            };
            for _ in 0..20 {
                let mut forger = Tamperer {
                    rng: &mut rng,
                    cast: &cast,
                    past: &past,
                };
                forger.forge(&mut card, &past[0].1);
                assert_eq!(card.len(), 3 * PLACE);
                match Card::decode(&card) {
                    Some(_) => sound += 1,
                    None => damaged += 1,
                }
            }
        }
        assert!(sound > 5000 && damaged > 5000);
    }
}
