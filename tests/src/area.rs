//! Card and chip, decoded into their places and entries and encoded again, in the order
//! of 02, No. 7.

use crate::answer::Why;
use crate::record::RECORD_MAX;

pub const NAME_MAX: usize = 64;
pub const PLACE: usize = 584;
pub const ENTRY: usize = 82;
const SLOTS_MAX: usize = 64;
const RECORD_AT: usize = 4 + NAME_MAX;

/// 1 to 64 bytes, each 0x20 to 0x7E or 0x80 to 0xFF (02, No. 1).
pub fn good_name(name: &[u8]) -> bool {
    !name.is_empty() && name_bytes(name)
}

/// At most 64 bytes, each one that a good name may hold: what a prefix has to be.
pub fn name_bytes(bytes: &[u8]) -> bool {
    let good = |byte: &u8| matches!(byte, 0x20..=0x7e | 0x80..=0xff);
    bytes.len() <= NAME_MAX && bytes.iter().all(good)
}

/// A used place or entry.
pub trait Slot: Sized {
    const SIZE: usize;

    /// Reads the fields, without asking whether the filling is zero.
    fn read(bytes: &[u8]) -> Option<Self>;
    fn encode(&self) -> Vec<u8>;
    fn name(&self) -> &[u8];
}

#[derive(Clone, Debug, PartialEq, Eq)]
pub struct Place {
    pub name: Vec<u8>,
    /// The bytes that the record length counts, well formed or not.
    pub record: Vec<u8>,
}

impl Slot for Place {
    const SIZE: usize = PLACE;

    fn read(bytes: &[u8]) -> Option<Place> {
        let record_length = usize::from(u16::from_le_bytes([bytes[2], bytes[3]]));
        Some(Place {
            name: bytes[4..RECORD_AT].get(..usize::from(bytes[1]))?.to_vec(),
            record: bytes[RECORD_AT..].get(..record_length)?.to_vec(),
        })
    }

    fn encode(&self) -> Vec<u8> {
        let mut bytes = vec![1, self.name.len() as u8];
        bytes.extend((self.record.len() as u16).to_le_bytes());
        bytes.extend(filled(&self.name, NAME_MAX));
        bytes.extend(filled(&self.record, RECORD_MAX));
        bytes
    }

    fn name(&self) -> &[u8] {
        &self.name
    }
}

#[derive(Clone, Debug, PartialEq, Eq)]
pub struct Entry {
    pub name: Vec<u8>,
    pub cmac: [u8; 16],
}

impl Slot for Entry {
    const SIZE: usize = ENTRY;

    fn read(bytes: &[u8]) -> Option<Entry> {
        Some(Entry {
            name: bytes[2..2 + NAME_MAX]
                .get(..usize::from(bytes[1]))?
                .to_vec(),
            cmac: bytes[2 + NAME_MAX..].try_into().ok()?,
        })
    }

    fn encode(&self) -> Vec<u8> {
        let head = [1, self.name.len() as u8];
        [&head[..], &filled(&self.name, NAME_MAX), &self.cmac].concat()
    }

    fn name(&self) -> &[u8] {
        &self.name
    }
}

fn filled(bytes: &[u8], size: usize) -> Vec<u8> {
    let mut bytes = bytes.to_vec();
    bytes.resize(size, 0);
    bytes
}

/// An undamaged card or chip: the used places or entries at the front, in the order of
/// their names, and free ones behind them (02, No. 7).
#[derive(Clone, Debug, PartialEq, Eq)]
pub struct Area<S> {
    used: Vec<S>,
    /// All of them, the free ones too.
    slots: usize,
}

pub type Card = Area<Place>;
pub type Chip = Area<Entry>;

/// "byte order of their names (a prefix first)": the first byte that differs decides, as a
/// number from 0 to 255; where none does, the shorter name comes first.
pub fn in_front(a: &[u8], b: &[u8]) -> bool {
    match a.iter().zip(b).find(|(x, y)| x != y) {
        Some((x, y)) => x < y,
        None => a.len() < b.len(),
    }
}

impl<S: Slot> Area<S> {
    pub fn free(slots: usize) -> Self {
        let used = Vec::new();
        Area { used, slots }
    }

    /// So many slots that hold these, which may come in any order.
    pub fn holding(slots: usize, used: impl IntoIterator<Item = S>) -> Self {
        let mut area = Area::free(slots);
        used.into_iter().for_each(|slot| area.put(slot));
        area
    }

    pub fn right_length(bytes: &[u8]) -> bool {
        bytes.len() % S::SIZE == 0 && (1..=SLOTS_MAX).contains(&(bytes.len() / S::SIZE))
    }

    /// The places or entries of bytes of right length, or `None` for damage.
    pub fn decode(bytes: &[u8]) -> Option<Self> {
        Self::ordered(Self::shaped(bytes)?)
    }

    /// Each slot by itself, free ones as `None`; nothing where one isn't well shaped.
    fn shaped(bytes: &[u8]) -> Option<Vec<Option<S>>> {
        bytes.chunks_exact(S::SIZE).map(Self::decode_slot).collect()
    }

    /// "any other order is damage": a used slot behind a free one, or behind one whose name
    /// isn't in front of its own. So no two hold one name.
    fn ordered(slots: Vec<Option<S>>) -> Option<Self> {
        let mut area = Self::free(slots.len());
        for (at, slot) in slots.into_iter().enumerate() {
            if let Some(slot) = slot {
                let last = area.used.last();
                let follows = last.map_or(true, |last| in_front(last.name(), slot.name()));
                if area.used.len() != at || !follows {
                    return None;
                }
                area.used.push(slot);
            }
        }
        Some(area)
    }

    /// Free, used, or (outer `None`) not well shaped. A used slot is the encoding
    /// of what was read from it, which tests the state byte and every filling.
    fn decode_slot(bytes: &[u8]) -> Option<Option<S>> {
        if bytes.iter().all(|byte| *byte == 0) {
            return Some(None);
        }
        let slot = S::read(bytes)?;
        (good_name(slot.name()) && slot.encode() == bytes).then_some(Some(slot))
    }

    pub fn encode(&self) -> Vec<u8> {
        let used = self.used.iter().flat_map(S::encode).collect::<Vec<u8>>();
        filled(&used, self.slots * S::SIZE)
    }

    /// Each with its number, from 0.
    pub fn used(&self) -> impl Iterator<Item = (usize, &S)> {
        self.used.iter().enumerate()
    }

    pub fn find(&self, name: &[u8]) -> Option<&S> {
        self.used.iter().find(|slot| slot.name() == name)
    }

    pub fn free_slots(&self) -> usize {
        self.slots - self.used.len()
    }

    pub fn has_free(&self) -> bool {
        self.free_slots() > 0
    }

    /// A known name keeps its own; a new one is put where its name belongs, and those
    /// behind it move on by one.
    pub fn put(&mut self, slot: S) {
        let lower = |used: &&S| in_front(used.name(), slot.name());
        let at = self.used.iter().filter(lower).count();
        match self.used.get_mut(at) {
            Some(own) if own.name() == slot.name() => *own = slot,
            _ => {
                assert!(self.has_free(), "room was tested");
                self.used.insert(at, slot);
            }
        }
    }

    /// Those behind it close up, so that the last one comes free.
    pub fn take_out(&mut self, name: &[u8]) {
        self.used.retain(|slot| slot.name() != name);
    }
}

/// Slots as they are given, in whatever order; `None` is a free one.
pub fn laid_out<S: Slot>(slots: &[Option<S>]) -> Vec<u8> {
    let free = || vec![0; S::SIZE];
    let bytes = |slot: &Option<S>| slot.as_ref().map_or_else(free, S::encode);
    slots.iter().flat_map(bytes).collect()
}

/// Number 1 for card and chip.
pub fn test_lengths(card: &[u8], chip: &[u8]) -> Result<(), Why> {
    if !Card::right_length(card) {
        Err(Why::CardLength)
    } else if !Chip::right_length(chip) {
        Err(Why::ChipLength)
    } else {
        Ok(())
    }
}

/// Number 2; the lengths were tested. Whichever slot is wrong by itself is told first.
pub fn decode(card: &[u8], chip: &[u8]) -> Result<(Card, Chip), Why> {
    let card = Card::shaped(card).ok_or(Why::CardDamaged)?;
    let chip = Chip::shaped(chip).ok_or(Why::ChipDamaged)?;
    let card = Card::ordered(card).ok_or(Why::CardOrder)?;
    let chip = Chip::ordered(chip).ok_or(Why::ChipOrder)?;
    Ok((card, chip))
}

#[cfg(test)]
mod tests {
    use super::*;

    fn place(name: &[u8], record: &[u8]) -> Place {
        Place {
            name: name.to_vec(),
            record: record.to_vec(),
        }
    }

    #[test]
    fn names() {
        assert!(!good_name(b"") && name_bytes(b""));
        for byte in [0x20, 0x21, 0x7e, 0x80, 0x9f, 0xff] {
            assert!(good_name(&[byte]) && good_name(&[byte; 64]) && !good_name(&[byte; 65]));
            assert!(name_bytes(&[byte; 64]) && !name_bytes(&[byte; 65]));
        }
        for byte in [0, 0x0a, 0x14, 0x1f, 0x7f] {
            assert!(!good_name(&[b'a', byte]) && !name_bytes(&[byte]));
        }
        assert!(good_name(b"Cello 3") && good_name("Flöte".as_bytes()) && good_name(b"Fl\xf6te"));
    }

    #[test]
    fn lengths() {
        for (length, right) in [(0, false), (584, true), (583, false), (585, false)] {
            assert_eq!(Card::right_length(&vec![0; length]), right);
        }
        assert!(Card::right_length(&vec![0; 64 * 584]) && !Card::right_length(&vec![0; 65 * 584]));
        assert!(Chip::right_length(&vec![0; 64 * 82]) && !Chip::right_length(&vec![0; 65 * 82]));
    }

    #[test]
    fn every_flip_outside_name_and_record_is_damage() {
        let bytes = place(b"name", b"record").encode();
        for at in 0..PLACE {
            for bit in 0..8 {
                let mut flipped = bytes.clone();
                flipped[at] ^= 1 << bit;
                let decoded = Card::decode(&flipped);
                match at {
                    4..=7 => assert_eq!(decoded.is_some(), good_name(&flipped[4..8])),
                    // The record is "record" of any bytes, and may end in a cut zero.
                    68..=73 => assert!(decoded.is_some()),
                    // A longer record length takes in zeros.
                    2 | 3 => {
                        let length = u16::from_le_bytes([flipped[2], flipped[3]]);
                        assert_eq!(decoded.is_some(), (6..=516).contains(&length));
                    }
                    _ => assert!(decoded.is_none(), "byte {at}"),
                }
            }
        }
    }

    #[test]
    fn one_name_twice_is_damage() {
        let twice = [place(b"a", b"1").encode(), place(b"a", b"2").encode()].concat();
        assert!(Card::decode(&twice).is_none());
        let once = [place(b"a", b"1").encode(), place(b"ab", b"1").encode()].concat();
        assert_eq!(Card::decode(&once).unwrap().encode(), once);
    }

    /// From the lowest to the highest, by hand.
    const ORDER: [&[u8]; 14] = [
        b" ",
        b" ~",
        b"0",
        b"A",
        b"a",
        b"a ",
        b"aa",
        b"ab",
        b"a\x80",
        b"b",
        b"~",
        b"\x80",
        b"\x80\xff",
        b"\xff",
    ];

    #[test]
    fn the_order_is_that_of_unsigned_bytes_with_a_prefix_first() {
        for (at, a) in ORDER.iter().enumerate() {
            for (other, b) in ORDER.iter().enumerate() {
                assert_eq!(in_front(a, b), at < other, "{a:?} {b:?}");
            }
        }
        let long = |length: usize, last: u8| [&vec![b'n'; length - 1][..], &[last]].concat();
        assert!(in_front(&long(64, 0x7e), &long(64, 0x80)));
        assert!(in_front(&long(63, b'n'), &long(64, b' ')));
        assert!(in_front(&long(64, 0xff), &long(63, b'o')));
    }

    #[test]
    fn any_other_order_is_damage() {
        let [a, b, c] = [&b"a"[..], b"b", b"c"].map(|name| Some(place(name, b"")));
        let card = |slots: &[&Option<Place>]| {
            let slots: Vec<Option<Place>> = slots.iter().map(|slot| (*slot).clone()).collect();
            Card::decode(&laid_out(&slots))
        };
        let none = &None;
        for sound in [
            vec![none, none],
            vec![&b, none],
            vec![&a, &b, &c],
            vec![&a, &c, none, none],
        ] {
            assert!(card(&sound).is_some());
        }
        for damaged in [
            vec![none, &b],
            vec![&a, none, &b],
            vec![&b, &a],
            vec![&b, &a, none],
            vec![&a, &c, &b],
            vec![&c, &b, &a],
            vec![&a, &b, none, &c],
            vec![&a, &b, &b],
        ] {
            assert!(card(&damaged).is_none());
        }
    }

    #[test]
    fn a_put_moves_the_rest_on_and_a_taking_out_closes_up() {
        let mut card = Card::free(4);
        for (name, record) in [(b"b", b"1"), (b"d", b"2"), (b"a", b"3"), (b"c", b"4")] {
            card.put(place(name, record));
        }
        let all = [(b"a", b"3"), (b"b", b"1"), (b"c", b"4"), (b"d", b"2")];
        let bytes = |used: &[(&[u8; 1], &[u8; 1])], slots: usize| {
            let used = used.iter();
            let used = used.flat_map(|(name, record)| place(&name[..], &record[..]).encode());
            filled(&used.collect::<Vec<u8>>(), slots * PLACE)
        };
        assert_eq!(card.encode(), bytes(&all, 4));
        assert!(!card.has_free());
        card.put(place(b"b", b"5"));
        assert_eq!(
            card.encode(),
            bytes(&[all[0], (b"b", b"5"), all[2], all[3]], 4)
        );
        card.take_out(b"b");
        assert_eq!(card.encode(), bytes(&[all[0], all[2], all[3]], 4));
        card.take_out(b"d");
        card.take_out(b"nowhere");
        assert_eq!(card.encode(), bytes(&[all[0], all[2]], 4));
        card.take_out(b"a");
        assert_eq!(card.encode(), bytes(&[all[2]], 4));
        assert_eq!(card.free_slots(), 3);
    }
}
