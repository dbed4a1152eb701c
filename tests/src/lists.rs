//! Demand 3: two lists of calls that share no name, merged and run on one card
//! and chip, answer as each list's own book does.
//!
//! Room: 01 counts "a name set", accepted or refused, once. The starts here have
//! a place for each name that the card holds or that is set, and an entry for
//! each that the chip holds or that is set: the tightest start from which no
//! merge can meet 10, so no reading of the premise asks for less.
//!
//! 02, No. 7: the same two lists are merged twice, and both merges have to end with
//! equal bytes on card and chip, the library's and the reference's.
//!
//! 02, No. 2 "counts the finish as a set": a `set_finalize` gives the name that its
//! handle tells, and sets it where it is good and its length is one.

use std::collections::BTreeSet;

use crate::area::{good_name, Area, Card, Chip, Slot, ENTRY, NAME_MAX, PLACE};
use crate::book::{Answer, Book, Contents};
use crate::calls::{self, Call};
use crate::cast::{self, Cast};
use crate::handle::Handle;
use crate::library::Library;
use crate::record::Record;
use crate::rng::Rng;
use crate::show;
use crate::shrink::{drop_parts, shorten_area};
use crate::tally::{Tally, NUMBERS};

/// Two merges of the same two lists.
#[derive(Clone)]
pub struct Merge {
    card: Vec<u8>,
    chip: Vec<u8>,
    /// In the order of the first merge.
    calls: Vec<Step>,
}

/// A call of one of the lists.
#[derive(Clone)]
struct Step {
    side: usize,
    call: Call,
    /// Where it stands in the second merge. What is left keeps its order there when
    /// others are dropped.
    second: usize,
}

/// The calls that the lists hold.
pub const KINDS: [usize; 5] = [0, 1, 2, 3, Call::SET_FINALIZE];

fn name_of(call: &Call) -> Vec<u8> {
    call.name().expect("a call of demand 3")
}

/// Whether the call sets its name, accepted or refused.
fn sets(call: &Call) -> bool {
    let fits = match call {
        Call::Set { .. } => true,
        Call::SetFinalize { handle, .. } => Handle::decode(handle).name_length <= NAME_MAX as u32,
        _ => false,
    };
    fits && good_name(&name_of(call))
}

pub fn merge(mut rng: Rng) -> Merge {
    let cast = Cast::new(&mut rng);
    let (card, chip) = cast::sound_start(&mut rng, &cast, 24, 24);
    let sides = sides(&mut rng, &cast);
    // Each list is made along its own book, so that its calls suit it.
    let start = Book::of(&card, &chip);
    let lists = sides.map(|names| list(&mut rng, &cast, &names, start.clone()));
    let calls = merged_twice(&mut rng, lists);
    let set: BTreeSet<Vec<u8>> = calls
        .iter()
        .filter(|step| sets(&step.call))
        .map(|step| name_of(&step.call))
        .collect();
    Merge {
        card: with_room(&mut rng, card, &set).encode(),
        chip: with_room(&mut rng, chip, &set).encode(),
        calls,
    }
}

/// The names of each list: parted, bad ones too.
fn sides(rng: &mut Rng, cast: &Cast) -> [Vec<Vec<u8>>; 2] {
    let bad: BTreeSet<Vec<u8>> = (0..2).map(|_| cast::hostile_name(rng)).collect();
    let mut sides = [Vec::new(), Vec::new()];
    for name in cast.names.iter().cloned().chain(bad) {
        sides[rng.below(2)].push(name);
    }
    sides
}

fn list(rng: &mut Rng, cast: &Cast, names: &[Vec<u8>], mut book: Book) -> Vec<Call> {
    if names.is_empty() {
        return Vec::new();
    }
    let good: Vec<Vec<u8>> = names
        .iter()
        .filter(|name| good_name(name))
        .cloned()
        .collect();
    (0..rng.below(25))
        .map(|_| {
            let from = if good.is_empty() || rng.percent(10) {
                names
            } else {
                &good
            };
            let name = rng.pick(from);
            let call = list_call(rng, cast, name, &book);
            book.step(&call);
            call
        })
        .collect()
}

fn list_call(rng: &mut Rng, cast: &Cast, name: Vec<u8>, book: &Book) -> Call {
    let key = match rng.below(40) {
        0 => rng.bytes(15),
        1 => rng.bytes(17),
        2 | 3 => cast.other_key.to_vec(),
        _ => cast.key.to_vec(),
    };
    let old = book.contents(&name).record;
    let old = old.and_then(|record| Record::decode(&record));
    match rng.below(10) {
        0..=4 => {
            let old = old.map(|record| record.flags.bits());
            let mut data = cast::data(rng);
            if rng.percent(4) {
                data.resize(481, 0);
            }
            let iv_length = if rng.percent(4) { 7 } else { 8 };
            let flags = if rng.percent(4) {
                8
            } else {
                cast::flags(rng, old)
            };
            let iv = rng.bytes(iv_length);
            if rng.percent(40) {
                let held = cast::held(rng, &name, flags, &iv, &data);
                return finalize(rng, key, held);
            }
            Call::Set {
                key,
                name,
                flags,
                iv,
                data,
            }
        }
        5..=7 => {
            let size = old.map_or(0, |record| record.stored.len());
            Call::Get {
                key,
                name,
                offset: cast::offset(rng, size),
                output: cast::output(rng, size),
            }
        }
        8 => Call::Info { key, name },
        _ => Call::Remove { name },
    }
}

/// At times broken. The name stays, also where its length is told wrong.
fn finalize(rng: &mut Rng, key: Vec<u8>, held: (Handle, Vec<u8>)) -> Call {
    let (mut handle, mut staging) = held;
    if rng.percent(6) {
        cast::break_handle(rng, &mut handle);
    }
    if rng.percent(4) {
        staging.resize(rng.pick(&[0, 479, 481]), 0);
    }
    Call::SetFinalize {
        key,
        handle: handle.encode(),
        staging,
    }
}

fn merged_twice(rng: &mut Rng, lists: [Vec<Call>; 2]) -> Vec<Step> {
    let lengths = [lists[0].len(), lists[1].len()];
    let (first, second) = (shuffle(rng, lengths), shuffle(rng, lengths));
    // Each list's own calls, in turn, in the second merge.
    let place = |side: usize| {
        second
            .iter()
            .enumerate()
            .filter(move |(_, of)| **of == side)
    };
    let mut places = [place(0), place(1)].map(|of| of.map(|(at, _)| at));
    let mut lists = lists.map(Vec::into_iter);
    let mut step = |side: usize| Step {
        side,
        call: lists[side].next().expect("as many"),
        second: places[side].next().expect("as many"),
    };
    first.into_iter().map(&mut step).collect()
}

/// From which list each call of a merge comes. At times one list comes whole before the
/// other, so that all of its names arrive first.
fn shuffle(rng: &mut Rng, mut left: [usize; 2]) -> Vec<usize> {
    let whole = rng.percent(20).then(|| rng.below(2));
    let mut sides = Vec::new();
    while left != [0, 0] {
        let side = match (left, whole) {
            ([_, 0], _) => 0,
            ([0, _], _) => 1,
            (_, Some(side)) => side,
            _ => rng.below(2),
        };
        left[side] -= 1;
        sides.push(side);
    }
    sides
}

/// The same slots among as few as the premise allows, at times a few more.
fn with_room<S: Slot + Clone>(rng: &mut Rng, area: Area<S>, set: &BTreeSet<Vec<u8>>) -> Area<S> {
    let held: BTreeSet<Vec<u8>> = area.used().map(|(_, slot)| slot.name().to_vec()).collect();
    let room = held.union(set).count() + rng.pick(&[0, 0, 0, 1, 3]);
    Area::holding(room.max(1), area.used().map(|(_, slot)| slot.clone()))
}

/// What differs first, if anything does: in the first merge from the lists' books, then in
/// the second, then between what the two leave.
pub fn check(merge: &Merge, library: &dyn Library, tally: &mut Tally) -> Option<String> {
    let [first, second] = merge.orders();
    let ends = run(merge, &first, library, tally).and_then(|end| {
        let other = run(merge, &second, library, tally);
        let other = other.map_err(|why| format!("merged otherwise, {why}"));
        Ok([end, other?])
    });
    match ends {
        Err(why) => Some(why),
        Ok([end, other]) => same_ends("two merges", &end, &other).or_else(|| {
            let [first, second] = [&first, &second].map(|calls| merge.reference(calls));
            same_ends("the reference and the library", &first, &end)
                .or_else(|| same_ends("two merges of the reference", &first, &second))
        }),
    }
}

type End = (Vec<u8>, Vec<u8>);

fn same_ends(whose: &str, one: &End, other: &End) -> Option<String> {
    let card = show::first_difference("the final card", &one.0, &other.0);
    let chip = || show::first_difference("the final chip", &one.1, &other.1);
    let different = card.or_else(chip)?;
    Some(format!("of {whose} {different}"))
}

impl Merge {
    /// The calls in the order of each merge.
    fn orders(&self) -> [Vec<&Step>; 2] {
        let first: Vec<&Step> = self.calls.iter().collect();
        let mut second = first.clone();
        second.sort_by_key(|step| step.second);
        [first, second]
    }

    /// Card and chip as the reference leaves them.
    fn reference(&self, calls: &[&Step]) -> End {
        let start = (self.card.clone(), self.chip.clone());
        calls.iter().fold(start, |(card, chip), step| {
            let answer = calls::answer(&card, &chip, &step.call).0;
            (answer.card, answer.chip)
        })
    }
}

/// Card and chip after these calls, which answer as the lists' books do.
fn run(
    merge: &Merge,
    calls: &[&Step],
    library: &dyn Library,
    tally: &mut Tally,
) -> Result<End, String> {
    let (mut card, mut chip) = (merge.card.clone(), merge.chip.clone());
    // A damaged start would compare nothing, so it may not pass for sameness.
    let start = Book::of(
        &Card::decode(&card).expect("a sound start"),
        &Chip::decode(&chip).expect("a sound start"),
    );
    let mut books = [start.clone(), start.clone()];
    for (step, Step { side, call, .. }) in calls.iter().enumerate() {
        let expected = books[*side].step(call);
        let (_, why) = calls::answer(&card, &chip, call);
        let got = library.call(&card, &chip, call);
        tally.count(call.kind(), got.answer.number, why);
        let told = Answer {
            number: got.answer.number,
            returned: got.answer.returned,
            output: got.answer.output,
        };
        if let Some(stray) = got.strays.first() {
            return Err(format!("step {step}: {stray}"));
        }
        if told != expected {
            return Err(format!(
                "step {step}: the book says {} {:?} output {}\n    got {} {:?} output {}",
                expected.number,
                expected.returned,
                show::buffer(&expected.output),
                told.number,
                told.returned,
                show::buffer(&told.output)
            ));
        }
        (card, chip) = (got.answer.card, got.answer.chip);
    }
    match final_contents(merge, &start, &books, &card, &chip) {
        Some(different) => Err(different),
        None => Ok((card, chip)),
    }
}

/// In the end each name has the contents of its own list's book.
fn final_contents(
    merge: &Merge,
    start: &Book,
    books: &[Book; 2],
    card: &[u8],
    chip: &[u8],
) -> Option<String> {
    let (card, chip) = match (Card::decode(card), Chip::decode(chip)) {
        (Some(card), Some(chip)) => (card, chip),
        _ => return Some("the final card or chip is damaged".into()),
    };
    let end = Book::of(&card, &chip);
    let called = merge.calls.iter().map(|step| name_of(&step.call));
    let names: BTreeSet<Vec<u8>> = called
        .chain(start.names().chain(end.names()).cloned())
        .collect();
    names.iter().find_map(|name| {
        let mut owner = merge
            .calls
            .iter()
            .filter(|step| name_of(&step.call) == *name);
        let book = owner.next().map_or(start, |step| &books[step.side]);
        let (expected, got) = (book.contents(name), end.contents(name));
        (expected != got).then(|| {
            format!(
                "final contents of \"{}\"\n    expected {}\n    got {}",
                name.escape_ascii(),
                contents(&expected),
                contents(&got)
            )
        })
    })
}

fn contents(contents: &Contents) -> String {
    let record = contents
        .record
        .as_deref()
        .map_or("none".into(), show::buffer);
    let cmac = contents.cmac.map_or("none".into(), |cmac| show::hex(&cmac));
    format!("record {record}, CMAC {cmac}")
}

/// The shortest merge found that still differs, told.
pub fn report(merge: &Merge, library: &dyn Library) -> String {
    let differs = |merge: &Merge| check(merge, library, &mut Tally::default()).is_some();
    let with = |calls: &[Step]| Merge {
        calls: calls.to_vec(),
        ..merge.clone()
    };
    let mut short = with(&drop_parts(merge.calls.clone(), &|calls| {
        differs(&with(calls))
    }));
    // Dropping a place could take the room that the premise asks for.
    short.card = shorten_area(short.card.clone(), PLACE, &|card| {
        card.len() == merge.card.len()
            && differs(&Merge {
                card: card.to_vec(),
                ..short.clone()
            })
    });
    short.chip = shorten_area(short.chip.clone(), ENTRY, &|chip| {
        chip.len() == merge.chip.len()
            && differs(&Merge {
                chip: chip.to_vec(),
                ..short.clone()
            })
    });
    let mut text = format!(
        "  start card {}\n  start chip {}\n",
        show::buffer(&short.card),
        show::buffer(&short.chip)
    );
    for Step { side, call, .. } in &short.calls {
        text += &format!("  list {}: {}\n", ["A", "B"][*side], show::call(call));
    }
    let [_, second] = short.orders();
    let place = |step: &&Step| {
        let own = short.calls.iter().position(|of| of.second == step.second);
        own.expect("one of them").to_string()
    };
    let places: Vec<String> = second.iter().map(place).collect();
    text += &format!("  merged otherwise: steps {}\n", places.join(" "));
    let difference = check(&short, library, &mut Tally::default());
    text + "  " + &difference.expect("it still differs") + "\n"
}

/// The numbers that the book can answer each call of demand 3 with.
fn numbers(kind: &str) -> &'static [u32] {
    match kind {
        "set" => &[0, 1, 3, 4, 5, 7, 8, 9, 12],
        "get" => &[0, 1, 3, 6, 8, 11, 12, 14],
        "info" => &[0, 1, 3, 6, 8, 11, 12],
        "remove" => &[0, 3, 6, 7, 8],
        "set_finalize" => &[0, 1, 3, 4, 7, 8, 9, 12, 19],
        _ => &[],
    }
}

/// Numbers that a call never answered, or that the book has none of.
pub fn gaps(tally: &Tally) -> Vec<String> {
    let mut gaps = Vec::new();
    for kind in KINDS {
        let name = Call::KINDS[kind];
        for number in NUMBERS {
            if numbers(name).contains(&number) != (tally.number(kind, number) > 0) {
                gaps.push(format!("{name} {number}"));
            }
        }
    }
    gaps
}

#[cfg(test)]
mod tests {
    use super::*;
    use crate::library::{Faulty, Observed, Reference};

    #[test]
    fn the_reference_keeps_demand_3() {
        let mut tally = Tally::default();
        for index in 0..1500 {
            let merge = merge(Rng::part(3, index));
            if check(&merge, &Reference, &mut tally).is_some() {
                panic!("{}", report(&merge, &Reference));
            }
        }
        assert_eq!(gaps(&tally), Vec::<String>::new());
    }

    #[test]
    fn the_lists_share_no_name() {
        for index in 0..1500 {
            let merge = merge(Rng::part(4, index));
            let names = |of: usize| -> BTreeSet<Vec<u8>> {
                let calls = merge.calls.iter().filter(|step| step.side == of);
                calls.map(|step| name_of(&step.call)).collect()
            };
            assert!(names(0).is_disjoint(&names(1)), "{index}");
        }
    }

    #[test]
    fn two_merges_have_the_same_lists_and_mostly_another_order() {
        let mut others = 0;
        for index in 0..1500 {
            let merge = merge(Rng::part(4, index));
            let [first, second] = merge.orders();
            for side in [0, 1] {
                // Where a call stands in the second merge tells it from all others.
                let list = |calls: &[&Step]| -> Vec<usize> {
                    let own = calls.iter().filter(|step| step.side == side);
                    own.map(|step| step.second).collect()
                };
                assert_eq!(list(&first), list(&second), "{index}");
            }
            let sides = |calls: &[&Step]| calls.iter().map(|step| step.side).collect::<Vec<_>>();
            others += usize::from(sides(&first) != sides(&second));
        }
        assert!(others > 1000, "{others}");
    }

    #[test]
    fn other_bytes_in_the_end_are_told() {
        let end = (vec![0; PLACE], vec![0; ENTRY]);
        assert_eq!(same_ends("two merges", &end, &end), None);
        let (mut card, mut chip) = (end.clone(), end.clone());
        card.0[PLACE - 1] = 1;
        chip.1[ENTRY - 1] = 1;
        for (other, what) in [
            (card, "card differs first at byte 583"),
            (chip, "chip differs first at byte 81"),
        ] {
            let told = same_ends("two merges", &end, &other).expect("told");
            assert!(
                told.starts_with(&format!("of two merges the final {what}")),
                "{told}"
            );
        }
    }

    #[test]
    fn a_name_is_set_by_good_bytes_of_a_told_length() {
        let finalize = |name: &[u8], length| {
            let (mut handle, staging) = cast::held(&mut Rng::new(1), name, 0, &[0; 8], b"");
            handle.name_length = length;
            sets(&Call::SetFinalize {
                key: Vec::new(),
                handle: handle.encode(),
                staging,
            })
        };
        assert!(finalize(b"a", 1) && finalize(&[b'n'; 64], 64));
        assert!(!finalize(b"a", 0) && !finalize(b"a", 2) && !finalize(b"\x7f", 1));
        assert!(!finalize(&[b'n'; 64], 65) && !finalize(&[b'n'; 64], u32::MAX));
    }

    /// Trusts a handle whatever it counts.
    fn trust(call: &Call, seen: &mut Observed) {
        if matches!(call, Call::SetFinalize { .. }) && seen.answer.number == 19 {
            seen.answer.number = 0;
        }
    }

    #[test]
    fn a_wrong_answer_is_caught_and_its_merge_shortened() {
        let trusting = Faulty(trust);
        let told = (0..500).find_map(|index| {
            let merge = merge(Rng::part(5, index));
            check(&merge, &trusting, &mut Tally::default())?;
            Some(report(&merge, &trusting))
        });
        let told = told.expect("a difference");
        assert!(told.contains("the book says 19"), "{told}");
        assert_eq!(told.matches("\n  list ").count(), 1, "{told}");
    }
}
