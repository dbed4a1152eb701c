//! 02, No. 7: used places and entries stand at the front in the order of their names, free
//! ones behind them, and any other order is damage. The order of the names here is written
//! by hand; what a slot holds is what a set of that name alone makes.

use crate::answer::Answer;
use crate::area::{ENTRY, NAME_MAX, PLACE};
use crate::calls::Call;
use crate::ciphers::Checked;
use crate::handle::{Handle, STAGING};
use crate::keyfile::Attributes;
use crate::library::Library;
use crate::show;
use crate::stories::same_answer;

const KEY: [u8; 16] = *b"0123456789abcdef";
const IV: [u8; 8] = *b"iv-iv-iv";

/// From the first to the last, by hand.
fn ordered() -> Vec<Vec<u8>> {
    let long = |length: usize, end: &[u8]| [&vec![b'n'; length][..], end].concat();
    vec![
        b" ".to_vec(),
        b"  ".to_vec(),
        b" ~".to_vec(),
        b" \xff".to_vec(),
        b"!".to_vec(),
        b"0".to_vec(),
        b"10".to_vec(),
        b"2".to_vec(),
        b"A".to_vec(),
        b"Z".to_vec(),
        b"a".to_vec(),
        b"a ".to_vec(),
        b"aZ".to_vec(),
        b"aa".to_vec(),
        b"aaa".to_vec(),
        b"ab".to_vec(),
        b"a~".to_vec(),
        b"a\x80".to_vec(),
        b"a\xff".to_vec(),
        b"b".to_vec(),
        long(1, b""),
        long(16, b""),
        long(16, b"a"),
        long(16, b"b"),
        long(28, b"a"),
        long(28, b"b"),
        long(32, b"a"),
        long(32, b"b"),
        long(62, b"m"),
        long(63, b""),
        long(63, b" "),
        long(63, b"~"),
        long(63, b"\x80"),
        long(63, b"\xff"),
        long(62, b"o"),
        long(62, b"o "),
        long(62, b"\xff"),
        long(15, b"o"),
        b"~".to_vec(),
        b"~~".to_vec(),
        b"\x80".to_vec(),
        b"\x80 ".to_vec(),
        b"\x80\x80".to_vec(),
        b"\x81".to_vec(),
        b"\xc3\xb6".to_vec(),
        b"\xf6".to_vec(),
        b"\xff".to_vec(),
        b"\xff\x80".to_vec(),
        [0xff; NAME_MAX].to_vec(),
    ]
}

type Tried = Result<(), String>;
type Areas = (Vec<u8>, Vec<u8>);

/// A name with the slot and the entry that a set of it makes; no entry without flag 8.
#[derive(Clone)]
struct Piece {
    name: Vec<u8>,
    flags: u32,
    place: Vec<u8>,
    entry: Vec<u8>,
}

struct Trials<'a> {
    library: &'a dyn Library,
    tried: usize,
}

fn set(name: &[u8], flags: u32) -> Call {
    Call::Set {
        key: KEY.to_vec(),
        name: name.to_vec(),
        flags,
        iv: IV.to_vec(),
        // Of some length, so that the slots differ in more than their names.
        data: name.repeat(1 + name.len() % 3),
    }
}

fn get(name: &[u8]) -> Call {
    Call::Get {
        key: KEY.to_vec(),
        name: name.to_vec(),
        offset: 0,
        output: vec![0xee; 200],
    }
}

fn remove(name: &[u8]) -> Call {
    let name = name.to_vec();
    Call::Remove { name }
}

fn walk(start: usize) -> Call {
    Call::Walk {
        prefix: Vec::new(),
        start,
        name_buffer: vec![0xee; NAME_MAX],
    }
}

/// So many slots of this size, with these in the first ones.
fn front<'a>(slots: usize, size: usize, used: impl Iterator<Item = &'a Vec<u8>>) -> Vec<u8> {
    let mut bytes: Vec<u8> = used.flatten().copied().collect();
    bytes.resize(slots * size, 0);
    bytes
}

/// Card and chip that hold these, which are given in their order.
fn image(slots: usize, pieces: &[Piece]) -> Areas {
    (card(slots, pieces), chip(slots, pieces))
}

fn card(slots: usize, pieces: &[Piece]) -> Vec<u8> {
    front(slots, PLACE, pieces.iter().map(|piece| &piece.place))
}

fn chip(slots: usize, pieces: &[Piece]) -> Vec<u8> {
    front(slots, ENTRY, pieces.iter().map(|piece| &piece.entry))
}

impl Trials<'_> {
    /// The call answers this number, and as the reference does in all else.
    fn call(&mut self, areas: &Areas, call: &Call, number: u32) -> Result<Answer, String> {
        let answer = same_answer(self.library, &areas.0, &areas.1, call)?;
        self.tried += 1;
        match answer.number {
            got if got == number => Ok(answer),
            got => Err(format!(
                "{got}, not {number}\n  {}\n  card {}\n  chip {}",
                show::call(call),
                show::buffer(&areas.0),
                show::buffer(&areas.1)
            )),
        }
    }

    /// The same, and card and chip are then these.
    fn leaves(&mut self, areas: &mut Areas, call: &Call, number: u32, then: &Areas) -> Tried {
        let answer = self.call(areas, call, number)?;
        let card = show::first_difference("card", &then.0, &answer.card);
        let chip = show::first_difference("chip", &then.1, &answer.chip);
        *areas = (answer.card, answer.chip);
        match card.or(chip) {
            Some(different) => Err(format!("{different}\n  after {}", show::call(call))),
            None => Ok(()),
        }
    }

    /// What a set of this name makes where nothing else is.
    fn piece(&mut self, name: &[u8], flags: u32) -> Result<Piece, String> {
        let free = (vec![0; PLACE], vec![0; ENTRY]);
        let done = self.call(&free, &set(name, flags), 0)?;
        let protected = flags & 8 != 0;
        Ok(Piece {
            name: name.to_vec(),
            flags,
            place: done.card,
            entry: if protected { done.chip } else { Vec::new() },
        })
    }

    /// The names of these bytes, one each, with flags from the list in turn.
    fn pieces(&mut self, names: &[u8], flags: &[u32]) -> Result<Vec<Piece>, String> {
        let named = names.iter().zip(flags.iter().cycle());
        named
            .map(|(byte, flags)| self.piece(&[*byte], *flags))
            .collect()
    }
}

/// Each pair of names, arriving in either order and planted in either, on card and chip.
fn order(trials: &mut Trials) -> Tried {
    let pieces: Result<Vec<Piece>, String> = ordered()
        .iter()
        .map(|name| trials.piece(name, 12))
        .collect();
    let pieces = pieces?;
    let absent = get(b"absent");
    let free = (vec![0; 2 * PLACE], vec![0; 2 * ENTRY]);
    for (at, low) in pieces.iter().enumerate() {
        for high in &pieces[at + 1..] {
            let both = image(2, &[low.clone(), high.clone()]);
            for (first, second) in [(low, high), (high, low)] {
                let mut areas = free.clone();
                let alone = image(2, std::slice::from_ref(first));
                trials.leaves(&mut areas, &set(&first.name, 12), 0, &alone)?;
                trials.leaves(&mut areas, &set(&second.name, 12), 0, &both)?;
            }
            for name in [&low.name, &high.name] {
                trials.call(&both, &get(name), 0)?;
            }
            let other = image(2, &[high.clone(), low.clone()]);
            let cases = [
                (&both.0, &free.1, 6),
                (&other.0, &free.1, 2),
                (&free.0, &both.1, 6),
                (&free.0, &other.1, 2),
                (&other.0, &both.1, 2),
                (&both.0, &other.1, 2),
            ];
            for (card, chip, number) in cases {
                trials.call(&(card.clone(), chip.clone()), &absent, number)?;
            }
        }
        let twice = image(2, &[low.clone(), low.clone()]);
        trials.call(&(twice.0, free.1.clone()), &absent, 2)?;
        trials.call(&(free.0.clone(), twice.1), &absent, 2)?;
    }
    Ok(())
}

/// One card and one chip, whichever of these comes when.
fn arrivals(trials: &mut Trials) -> Tried {
    let names: [&[u8]; 5] = [b" ", b"Cello", b"Cello 3", b"~", b"\x80"];
    for flags in [[12; 5], [0; 5], [14, 0, 12, 5, 15]] {
        let pieces: Result<Vec<Piece>, String> = names
            .iter()
            .zip(flags)
            .map(|(name, flags)| trials.piece(name, flags))
            .collect();
        let pieces = pieces?;
        for arrival in 0..120 {
            let mut left: Vec<usize> = (0..5).collect();
            let mut come: Vec<usize> = Vec::new();
            let mut areas = (vec![0; 6 * PLACE], vec![0; 5 * ENTRY]);
            let mut number = arrival;
            for base in (1..=5).rev() {
                let next = left.remove(number % base);
                number /= base;
                come.push(next);
                come.sort_unstable();
                let there: Vec<Piece> = come.iter().map(|at| pieces[*at].clone()).collect();
                let then = (card(6, &there), chip(5, &there));
                let Piece { name, flags, .. } = &pieces[next];
                trials.leaves(&mut areas, &set(name, *flags), 0, &then)?;
            }
        }
    }
    Ok(())
}

/// A new name into each gap of as many as there are, on a card with one slot to spare and
/// with more; then out again.
fn inserts(trials: &mut Trials) -> Tried {
    let flags = [12, 0, 14, 4, 12, 13];
    let pieces = trials.pieces(b"abcdefghijklmnopq", &flags)?;
    for used in 0..=8 {
        // Every second one is there.
        let there: Vec<Piece> = (0..used).map(|at| pieces[2 * at + 1].clone()).collect();
        for gap in 0..=used {
            for spare in [1, 3] {
                let mut areas = image(used + spare, &there);
                let before = areas.clone();
                let mut all = there.clone();
                let new = pieces[2 * gap].clone();
                all.insert(gap, new.clone());
                let then = image(used + spare, &all);
                trials.leaves(&mut areas, &set(&new.name, new.flags), 0, &then)?;
                for piece in &all {
                    trials.call(&areas, &get(&piece.name), 0)?;
                }
                let once = new.flags & 1 != 0;
                let (number, after) = if once { (7, &then) } else { (0, &before) };
                trials.leaves(&mut areas, &remove(&new.name), number, after)?;
            }
        }
    }
    Ok(())
}

/// Each of as many as there are is removed, and each is set again: nothing moves then.
fn removes(trials: &mut Trials) -> Tried {
    let pieces = trials.pieces(b"adgjmpsv", &[12, 0, 14, 4])?;
    for used in 1..=8 {
        for slots in [used, used + 2] {
            let there = &pieces[..used];
            for at in 0..used {
                let Piece { name, flags, .. } = &there[at];
                let mut areas = image(slots, there);
                trials.leaves(&mut areas, &set(name, *flags), 0, &image(slots, there))?;
                let mut rest = there.to_vec();
                rest.remove(at);
                let then = image(slots, &rest);
                trials.leaves(&mut areas, &remove(name), 0, &then)?;
                if areas.0[(slots - 1) * PLACE..] != [0; PLACE] {
                    return Err("the freed slot is not all zero".into());
                }
                trials.leaves(&mut areas, &remove(name), 6, &then)?;
                trials.call(&areas, &get(name), 6)?;
                for piece in &rest {
                    trials.call(&areas, &get(&piece.name), 0)?;
                }
                trials.leaves(&mut areas, &set(name, *flags), 0, &image(slots, there))?;
            }
        }
    }
    Ok(())
}

/// No room for a new name in whichever gap: 10, and nothing has moved.
fn full(trials: &mut Trials) -> Tried {
    let pieces = trials.pieces(b"bdfhjl", &[12])?;
    for used in 1..=6 {
        let there = &pieces[..used];
        let both = image(used, there);
        let no_place = (both.0.clone(), chip(used + 1, there));
        let no_entry = (card(used + 1, there), both.1.clone());
        for gap in 0..=used {
            let name = [b'a' + 2 * gap as u8];
            for flags in [0, 12] {
                for areas in [&both, &no_place] {
                    trials.leaves(&mut areas.clone(), &set(&name, flags), 10, areas)?;
                }
            }
            trials.leaves(&mut no_entry.clone(), &set(&name, 12), 10, &no_entry)?;
            let new = trials.piece(&name, 0)?;
            let mut all = there.to_vec();
            all.insert(gap, new);
            let then = (card(used + 1, &all), both.1.clone());
            trials.leaves(&mut no_entry.clone(), &set(&name, 0), 0, &then)?;
        }
        for piece in there {
            let set = set(&piece.name, 12);
            trials.leaves(&mut both.clone(), &set, 0, &both)?;
        }
    }
    most(trials)
}

/// The same of 64.
fn most(trials: &mut Trials) -> Tried {
    let names: Vec<u8> = (0x80..0x80 + 64).collect();
    let pieces = trials.pieces(&names, &[12])?;
    let whole = image(64, &pieces);
    for name in [&b" "[..], b"\x80 ", b"\xa0\xff", b"\xff"] {
        trials.leaves(&mut whole.clone(), &set(name, 12), 10, &whole)?;
    }
    for at in [0, 1, 31, 62, 63] {
        let mut rest = pieces.clone();
        let out = rest.remove(at);
        let mut areas = whole.clone();
        trials.leaves(&mut areas, &remove(&out.name), 0, &image(64, &rest))?;
        // Behind no other, behind those up to 0xa0, and behind all.
        for (new, last) in [(&b" "[..], 0), (b"\xa0\xff", 0xa0), (b"\xff", 0xfe)] {
            let mut with = rest.clone();
            let lower = rest.iter().filter(|other| other.name[0] <= last).count();
            with.insert(lower, trials.piece(new, 12)?);
            let mut areas = areas.clone();
            trials.leaves(&mut areas, &set(new, 12), 0, &image(64, &with))?;
        }
        trials.leaves(&mut areas, &set(&out.name, 12), 0, &whole)?;
    }
    Ok(())
}

/// Every call that is lent card and chip, but reset.
fn every_call() -> Vec<Call> {
    let key = || KEY.to_vec();
    let iv = || IV.to_vec();
    let attributes = Attributes::default();
    let mut handle = Handle::start(b"b", 0, IV, 4).expect("a short name");
    handle.count = 4;
    vec![
        set(b"a", 0),
        set(b"b", 12),
        get(b"a"),
        get(b"b"),
        Call::Info {
            key: key(),
            name: b"c".to_vec(),
        },
        remove(b"a"),
        remove(b"b"),
        walk(0),
        walk(4),
        Call::KeepKey {
            key: key(),
            identifier: 42,
            attributes,
            material: b"key".to_vec(),
            flags: 0,
            iv: iv(),
        },
        Call::LoadKey {
            key: key(),
            identifier: 42,
            key_buffer: vec![0xee; 480],
        },
        Call::SetFinalize {
            key: key(),
            handle: handle.encode(),
            staging: vec![0xee; STAGING],
        },
        Call::StoreMix {
            key: key(),
            name: b"mix/a".to_vec(),
            flags: 0,
            iv: iv(),
            mix: vec![0; 9],
        },
        Call::FindMix {
            key: key(),
            session: 0,
            mix_buffer: vec![0xee; 153],
        },
    ]
}

/// Slots of this size in other orders: neighbours swapped, each with a free one before it,
/// a name twice, all the other way round, the first behind the last, free ones in front.
fn disorders(slots: usize, used: &[Vec<u8>]) -> Vec<Vec<Vec<u8>>> {
    let size = used[0].len();
    let free = vec![0; size];
    let mut sound = used.to_vec();
    sound.resize(slots, free.clone());
    let count = used.len();
    let mut disorders = Vec::new();
    let mut with = |change: &dyn Fn(&mut Vec<Vec<u8>>)| {
        let mut other = sound.clone();
        change(&mut other);
        disorders.push(other);
    };
    for at in 1..count {
        with(&|other| other.swap(at - 1, at));
        with(&|other| other[at - 1] = free.clone());
        with(&|other| other[at] = other[at - 1].clone());
    }
    for at in 0..count {
        with(&|other| {
            other.insert(at, free.clone());
            other.truncate(slots);
        });
        with(&|other| other[count] = other[at].clone());
    }
    with(&|other| other[..count].reverse());
    with(&|other| other.reverse());
    with(&|other| other[..count].rotate_left(1));
    with(&|other| other[..count].rotate_right(1));
    with(&|other| other.rotate_right(slots - count));
    disorders
}

/// 2 for every call but reset, which clears them; whatever is on the other one.
fn damage(trials: &mut Trials) -> Tried {
    let pieces = trials.pieces(b"bcdef", &[12])?;
    let sound = image(6, &pieces);
    let free = (vec![0; 6 * PLACE], vec![0; 6 * ENTRY]);
    let places: Vec<Vec<u8>> = pieces.iter().map(|piece| piece.place.clone()).collect();
    let entries: Vec<Vec<u8>> = pieces.iter().map(|piece| piece.entry.clone()).collect();
    let mut cases: Vec<Areas> = Vec::new();
    for card in disorders(6, &places) {
        cases.push((card.concat(), free.1.clone()));
        cases.push((card.concat(), sound.1.clone()));
    }
    for chip in disorders(6, &entries) {
        cases.push((free.0.clone(), chip.concat()));
        cases.push((sound.0.clone(), chip.concat()));
    }
    for areas in cases {
        for call in every_call() {
            trials.leaves(&mut areas.clone(), &call, 2, &areas)?;
        }
        trials.leaves(&mut areas.clone(), &Call::Reset, 0, &free)?;
    }
    Ok(())
}

/// The walk goes in the order of names; a place counts what stands before it.
fn walks(trials: &mut Trials) -> Tried {
    let names = ordered();
    let mut areas = (vec![0; names.len() * PLACE], vec![0; ENTRY]);
    // In an order of their own.
    for at in 0..names.len() {
        let name = &names[at * 10 % names.len()];
        areas = trials
            .call(&areas, &set(name, 0), 0)
            .map(|done| (done.card, done.chip))?;
    }
    let mut left = names;
    while !left.is_empty() {
        for (at, name) in left.iter().enumerate() {
            let answer = trials.call(&areas, &walk(at), 0)?;
            let expected = [&name[..], &vec![0xee; NAME_MAX - name.len()]].concat();
            if answer.output != expected || answer.returned != [name.len() as u64, at as u64 + 1] {
                return Err(format!("place {at} has {}", answer.output.escape_ascii()));
            }
        }
        trials.call(&areas, &walk(left.len()), 6)?;
        let out = left.remove(left.len() * 7 % 11 % left.len());
        let done = trials.call(&areas, &remove(&out), 0)?;
        areas = (done.card, done.chip);
    }
    Ok(())
}

/// The chip holds some of the card's names, or names that the card has not: each of the two
/// moves on and closes up by itself.
fn apart(trials: &mut Trials) -> Tried {
    let protected = trials.pieces(b"bdfh", &[12])?;
    let plain = trials.pieces(b"bdfh", &[0])?;
    let gone = trials.pieces(b"aceg", &[12])?;
    for kinds in 0..16 {
        let there: Vec<Piece> = (0..4)
            .map(|at| match kinds >> at & 1 {
                0 => plain[at].clone(),
                _ => protected[at].clone(),
            })
            .collect();
        for left_over in 0..16 {
            let on_chip = |without: usize| -> Vec<Piece> {
                let own = (0..4)
                    .filter(|at| *at != without)
                    .map(|at| there[at].clone());
                let over = (0..4).filter(|at| left_over >> at & 1 == 1);
                let mut all: Vec<Piece> = own.chain(over.map(|at| gone[at].clone())).collect();
                // One byte each.
                all.sort_by_key(|piece| piece.name[0]);
                all
            };
            let whole = (card(4, &there), chip(8, &on_chip(4)));
            for at in 0..4 {
                let Piece { name, flags, .. } = &there[at];
                let mut rest = there.clone();
                rest.remove(at);
                let then = (card(4, &rest), chip(8, &on_chip(at)));
                let mut areas = whole.clone();
                trials.leaves(&mut areas, &remove(name), 0, &then)?;
                trials.leaves(&mut areas, &set(name, *flags), 0, &whole)?;
                // An entry that was lost comes back to its place, and the card stays.
                if *flags == 12 {
                    let mut lost = (whole.0.clone(), then.1.clone());
                    trials.call(&lost, &get(name), 12)?;
                    trials.leaves(&mut lost, &set(name, 12), 0, &whole)?;
                }
                // The same of a slot.
                let mut lost = (then.0.clone(), whole.1.clone());
                let number = if *flags == 12 { 12 } else { 6 };
                trials.call(&lost, &get(name), number)?;
                trials.leaves(&mut lost, &set(name, *flags), 0, &whole)?;
            }
        }
    }
    Ok(())
}

type Part = fn(&mut Trials) -> Tried;

const PARTS: [(&str, Part); 8] = [
    ("order", order),
    ("arrivals", arrivals),
    ("inserts", inserts),
    ("removes", removes),
    ("full", full),
    ("damage", damage),
    ("walks", walks),
    ("apart", apart),
];

pub fn checks(library: &dyn Library) -> Vec<(String, Checked)> {
    each(library).collect()
}

/// One after the other.
pub fn each(library: &dyn Library) -> impl Iterator<Item = (String, Checked)> + '_ {
    PARTS.iter().map(move |(name, part)| {
        let mut trials = Trials { library, tried: 0 };
        let checked = part(&mut trials);
        let passed = format!("{} calls", trials.tried);
        (format!("sorted-{name}"), checked.map(|()| passed))
    })
}

#[cfg(test)]
mod tests {
    use super::*;
    use crate::library::Reference;

    #[test]
    fn the_reference_answers_as_by_hand() {
        for (name, checked) in checks(&Reference) {
            assert!(checked.is_ok(), "{name}: {checked:?}");
        }
    }
}
