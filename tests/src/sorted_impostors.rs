//! Wrong builds of 02, No. 7 that look right, and which checks tell each of them.
//!
//! A build keeps its slots by rules of its own. All else is the reference's: it is asked with
//! the same slots in their right order.

use std::fs;

use crate::answer::Answer;
use crate::area::{self, in_front, Area, Card, Chip, Slot, ENTRY, NAME_MAX, PLACE};
use crate::calls::{self, Call};
use crate::ciphers::Checked;
use crate::library::{all_but_calls, silent, Library, Observed, Tells};
use crate::rng::Rng;
use crate::tally::Tally;
use crate::{edges, generator, lists, orders, sorted, stories};

/// The slots of a card or a chip, each as its bytes; a free one is all zero.
type Slots = Vec<Vec<u8>>;
type Lower = fn(&[u8], &[u8]) -> bool;

/// How a build keeps one of the two.
#[derive(Clone, Copy)]
struct Rules {
    /// Whether the first name comes before the second.
    lower: Lower,
    /// Whether these slots are damage, each well shaped.
    damaged: fn(&Slots, Lower) -> bool,
    /// A new name's slot, for which there is room.
    insert: fn(&mut Slots, Vec<u8>, Lower),
    /// A known name's slot, which stands at this number.
    rewrite: fn(&mut Slots, usize, Vec<u8>),
    take_out: fn(&mut Slots, usize),
    /// What 10 leaves.
    refuse: fn(&mut Slots, Vec<u8>, Lower),
}

const RIGHT: Rules = Rules {
    lower: in_front,
    damaged: |slots, lower| hole(slots) || disorder(slots, lower) || twice(slots),
    insert: insert_in_order,
    rewrite: |slots, at, slot| slots[at] = slot,
    take_out: |slots, at| {
        let slot = slots.remove(at);
        slots.push(vec![0; slot.len()]);
    },
    refuse: |_, _, _| {},
};

fn free(slot: &[u8]) -> bool {
    slot[0] == 0
}

fn name_of(slot: &[u8]) -> &[u8] {
    let at = if slot.len() == PLACE { 4 } else { 2 };
    &slot[at..at + usize::from(slot[1])]
}

fn used(slots: &Slots) -> usize {
    slots.iter().filter(|slot| !free(slot)).count()
}

fn find(slots: &Slots, name: &[u8]) -> Option<usize> {
    let holds = |slot: &Vec<u8>| !free(slot) && name_of(slot) == name;
    slots.iter().position(holds)
}

fn hole(slots: &Slots) -> bool {
    slots[..used(slots)].iter().any(|slot| free(slot))
}

/// A name that isn't behind the one before it; the same name twice is another matter.
fn disorder(slots: &Slots, lower: Lower) -> bool {
    let names = slots.iter().filter(|slot| !free(slot));
    let names: Vec<&[u8]> = names.map(|slot| name_of(slot)).collect();
    names.windows(2).any(|pair| lower(pair[1], pair[0]))
}

fn twice(slots: &Slots) -> bool {
    let names = slots.iter().filter(|slot| !free(slot));
    let mut names: Vec<&[u8]> = names.map(|slot| name_of(slot)).collect();
    names.sort_unstable();
    names.windows(2).any(|pair| pair[0] == pair[1])
}

/// Behind all that don't come behind it, with the free ones behind them all.
fn insert_in_order(slots: &mut Slots, slot: Vec<u8>, lower: Lower) {
    let behind = |other: &&Vec<u8>| !free(other) && !lower(name_of(&slot), name_of(other));
    let at = slots.iter().filter(behind).count();
    let room = slots.iter().rposition(|slot| free(slot));
    slots.remove(room.expect("room was tested"));
    slots.insert(at, slot);
}

fn lowest_free(slots: &mut Slots, slot: Vec<u8>, _: Lower) {
    let at = slots.iter().position(|slot| free(slot));
    slots[at.expect("room was tested")] = slot;
}

fn leave_hole(slots: &mut Slots, at: usize) {
    slots[at].fill(0);
}

/// As 01 has it.
const ARRIVAL: Rules = Rules {
    damaged: |slots, _| twice(slots),
    insert: lowest_free,
    take_out: leave_hole,
    ..RIGHT
};

#[derive(Clone, Copy)]
struct Build {
    card: Rules,
    chip: Rules,
    /// Changes what the build answers: the call, the card that was lent, the answer.
    answers: fn(&Call, &[u8], &mut Answer),
}

const SOUND: Build = Build {
    card: RIGHT,
    chip: RIGHT,
    answers: |_, _, _| {},
};

/// Both by the same rules.
const fn both(rules: Rules) -> Build {
    Build {
        card: rules,
        chip: rules,
        ..SOUND
    }
}

const fn on_card(card: Rules) -> Build {
    Build { card, ..SOUND }
}

const fn on_chip(chip: Rules) -> Build {
    Build { chip, ..SOUND }
}

fn slots_of<S: Slot>(bytes: &[u8]) -> Slots {
    bytes.chunks_exact(S::SIZE).map(<[u8]>::to_vec).collect()
}

/// The same slots as 02 has them; of one name twice the first.
fn settled<S: Slot>(slots: &Slots) -> Vec<u8> {
    let mut area = Area::<S>::free(slots.len());
    for slot in slots.iter().filter(|slot| !free(slot)) {
        if area.find(name_of(slot)).is_none() {
            area.put(S::read(slot).expect("well shaped"));
        }
    }
    area.encode()
}

/// Whether each slot by itself is well shaped.
fn shaped(card: &[u8], chip: &[u8]) -> bool {
    let alone = |slot: &[u8]| Card::decode(slot).is_some();
    let kept = |slot: &[u8]| Chip::decode(slot).is_some();
    card.chunks_exact(PLACE).all(alone) && chip.chunks_exact(ENTRY).all(kept)
}

impl Build {
    fn answer(&self, card: &[u8], chip: &[u8], call: &Call) -> Answer {
        let right = || calls::answer(card, chip, call).0;
        if area::test_lengths(card, chip).is_err() || !shaped(card, chip) {
            return right();
        }
        let (mut places, mut entries) =
            (slots_of::<area::Place>(card), slots_of::<area::Entry>(chip));
        let (of_card, of_chip) = (&self.card, &self.chip);
        let damaged =
            (of_card.damaged)(&places, of_card.lower) || (of_chip.damaged)(&entries, of_chip.lower);
        let settled = if damaged && !matches!(call, Call::Reset) {
            // The tests before 2 stay before it.
            (vec![2; card.len()], chip.to_vec())
        } else {
            (
                settled::<area::Place>(&places),
                settled::<area::Entry>(&entries),
            )
        };
        let mut answer = calls::answer(&settled.0, &settled.1, call).0;
        if let Call::Reset = call {
            return answer;
        }
        let (then_card, then_chip) = (answer.card, answer.chip);
        (answer.card, answer.chip) = (card.to_vec(), chip.to_vec());
        match (call.name(), answer.number) {
            (Some(name), 0) => {
                keep(
                    of_card,
                    &mut places,
                    &name,
                    &slots_of::<area::Place>(&then_card),
                );
                keep(
                    of_chip,
                    &mut entries,
                    &name,
                    &slots_of::<area::Entry>(&then_chip),
                );
            }
            (Some(name), 10) => {
                (of_card.refuse)(&mut places, new_slot(PLACE, &name), of_card.lower);
                (of_chip.refuse)(&mut entries, new_slot(ENTRY, &name), of_chip.lower);
            }
            _ => {}
        }
        (answer.card, answer.chip) = (places.concat(), entries.concat());
        if let (Call::Walk { prefix, start, .. }, 0 | 6) = (call, answer.number) {
            walk(&places, prefix, *start, call, &mut answer);
        }
        answer
    }
}

/// A used slot of this name.
fn new_slot(size: usize, name: &[u8]) -> Vec<u8> {
    let mut slot = vec![0; size];
    let at = if size == PLACE { 4 } else { 2 };
    (slot[0], slot[1]) = (1, name.len() as u8);
    slot[at..at + name.len()].copy_from_slice(name);
    slot
}

/// The build's own slots come to hold what the right ones hold under the name.
fn keep(rules: &Rules, slots: &mut Slots, name: &[u8], right: &Slots) {
    let then = find(right, name).map(|at| right[at].clone());
    match (find(slots, name), then) {
        (Some(at), Some(slot)) if slots[at] == slot => {}
        (Some(at), Some(slot)) => (rules.rewrite)(slots, at, slot),
        (Some(at), None) => (rules.take_out)(slots, at),
        (None, Some(slot)) if used(slots) < slots.len() => (rules.insert)(slots, slot, rules.lower),
        _ => {}
    }
}

/// In the order in which the slots stand.
fn walk(slots: &Slots, prefix: &[u8], start: usize, call: &Call, answer: &mut Answer) {
    let shown = |at: &usize| !free(&slots[*at]) && name_of(&slots[*at]).starts_with(prefix);
    let found = (start..slots.len()).find(shown);
    let (number, name, next) = match found {
        Some(at) => (0, name_of(&slots[at]), at as u64 + 1),
        None => (6, &[][..], 0),
    };
    answer.number = number;
    answer.returned = [name.len() as u64, next];
    answer.output = calls::with_front(call.output(), name);
}

impl Library for Build {
    fn call(&self, card: &[u8], chip: &[u8], call: &Call) -> Observed {
        let mut answer = self.answer(card, chip, call);
        (self.answers)(call, card, &mut answer);
        let strays = Vec::new();
        Observed { answer, strays }
    }

    all_but_calls!();
}

const fn ordered_by(lower: Lower) -> Rules {
    Rules { lower, ..RIGHT }
}

fn signed(a: &[u8], b: &[u8]) -> bool {
    let signed = |name: &[u8]| name.iter().map(|byte| *byte as i8).collect::<Vec<i8>>();
    signed(a) < signed(b)
}

/// Of names that are zero filled.
fn in_first(length: usize, a: &[u8], b: &[u8]) -> bool {
    let filled = |name: &[u8]| {
        let mut name = name.to_vec();
        name.resize(NAME_MAX, 0);
        name.truncate(length);
        name
    };
    filled(a) < filled(b)
}

fn short_first(a: &[u8], b: &[u8]) -> bool {
    (a.len(), a) < (b.len(), b)
}

fn prefix_last(a: &[u8], b: &[u8]) -> bool {
    let behind = |name: &[u8]| [name, &[0xff; NAME_MAX]].concat();
    (behind(a), b.len()) < (behind(b), a.len())
}

fn case_folded(a: &[u8], b: &[u8]) -> bool {
    (a.to_ascii_lowercase(), a) < (b.to_ascii_lowercase(), b)
}

/// Those from the new one's place on move on, but not the last.
fn lose_last(slots: &mut Slots, slot: Vec<u8>, lower: Lower) {
    let last = used(slots);
    let behind = |other: &&Vec<u8>| !free(other) && !lower(name_of(&slot), name_of(other));
    let at = slots.iter().filter(behind).count();
    if at < last {
        slots.remove(last - 1);
        slots.insert(at, slot);
    } else {
        slots[last] = slot;
    }
}

/// What a build leaves that moves the rest on before it asks for room.
fn move_on(slots: &mut Slots, slot: Vec<u8>, lower: Lower) {
    if find(slots, name_of(&slot)).is_none() && used(slots) == slots.len() {
        let behind = |other: &&Vec<u8>| !lower(name_of(&slot), name_of(other));
        let at = slots.iter().filter(behind).count();
        let last = slots.len() - 1;
        for to in (at + 1..=last).rev() {
            slots[to] = slots[to - 1].clone();
        }
    }
}

/// Only this pair of neighbours is looked at.
fn pair_in_disorder(slots: &Slots, first: usize, lower: Lower) -> bool {
    let pair = slots.get(first..first + 2).map(<[Vec<u8>]>::to_vec);
    pair.map_or(false, |pair| disorder(&pair, lower))
}

const ANY_ORDER: Rules = Rules {
    damaged: |slots, _| hole(slots) || twice(slots),
    ..RIGHT
};
const HOLES: Rules = Rules {
    damaged: |slots, lower| disorder(slots, lower) || twice(slots),
    ..RIGHT
};
const TWICE: Rules = Rules {
    damaged: |slots, lower| hole(slots) || disorder(slots, lower),
    ..RIGHT
};

/// Each with the checks that can't tell it: the lists' starts are sound and have room, and the
/// orders of tests have few names and tell refusals alone.
const IMPOSTORS: [(&str, Build, &str); 41] = [
    ("signed bytes", both(ordered_by(signed)), "orders"),
    (
        "signed bytes on the chip",
        on_chip(ordered_by(signed)),
        "orders",
    ),
    (
        "the first 16 bytes decide",
        both(ordered_by(|a, b| in_first(16, a, b))),
        "orders",
    ),
    (
        "the first 32 bytes decide",
        both(ordered_by(|a, b| in_first(32, a, b))),
        "orders",
    ),
    (
        "the first 63 bytes decide",
        both(ordered_by(|a, b| in_first(63, a, b))),
        "orders",
    ),
    (
        "the first byte decides",
        both(ordered_by(|a, b| a[0] < b[0])),
        "",
    ),
    ("shorter names first", both(ordered_by(short_first)), ""),
    (
        "shorter names first on the chip",
        on_chip(ordered_by(short_first)),
        "",
    ),
    ("a prefix last", both(ordered_by(prefix_last)), "orders"),
    (
        "the last name first",
        both(ordered_by(|a, b| in_front(b, a))),
        "",
    ),
    (
        "upper and lower case alike",
        both(ordered_by(case_folded)),
        "orders",
    ),
    ("01's order", both(ARRIVAL), ""),
    ("01's order on the card", on_card(ARRIVAL), ""),
    ("01's order on the chip", on_chip(ARRIVAL), ""),
    (
        "entries as they arrive, without holes",
        on_chip(Rules {
            insert: lowest_free,
            ..ANY_ORDER
        }),
        "",
    ),
    (
        "slots as they arrive, told as damage",
        on_card(Rules {
            insert: lowest_free,
            ..RIGHT
        }),
        "orders",
    ),
    (
        "entries as they arrive, told as damage",
        on_chip(Rules {
            insert: lowest_free,
            ..RIGHT
        }),
        "orders",
    ),
    (
        "a remove leaves a hole",
        both(Rules {
            take_out: leave_hole,
            ..HOLES
        }),
        "",
    ),
    (
        "a remove leaves a hole, told as damage",
        both(Rules {
            take_out: leave_hole,
            ..RIGHT
        }),
        "orders",
    ),
    (
        "a remove leaves a hole on the chip",
        on_chip(Rules {
            take_out: leave_hole,
            ..RIGHT
        }),
        "orders",
    ),
    (
        "a remove leaves the last as it was",
        both(Rules {
            take_out: |slots, at| {
                let last = used(slots) - 1;
                let slot = slots.remove(at);
                let left = if at < last {
                    slots[last - 1].clone()
                } else {
                    vec![0; slot.len()]
                };
                slots.insert(last, left);
            },
            ..RIGHT
        }),
        "orders",
    ),
    (
        "a remove puts the last in its place",
        both(Rules {
            take_out: |slots, at| {
                let last = used(slots) - 1;
                slots.swap(at, last);
                slots[last].fill(0);
            },
            ..ANY_ORDER
        }),
        "",
    ),
    (
        "the last is lost",
        both(Rules {
            insert: lose_last,
            ..RIGHT
        }),
        "orders",
    ),
    (
        "the last is lost on the chip",
        on_chip(Rules {
            insert: lose_last,
            ..RIGHT
        }),
        "orders",
    ),
    (
        "a new name comes first",
        both(Rules {
            insert: |slots, slot, _| {
                slots.rotate_right(1);
                slots[0] = slot;
            },
            ..ANY_ORDER
        }),
        "",
    ),
    (
        "a known name comes last",
        both(Rules {
            rewrite: |slots, at, slot| {
                slots.remove(at);
                slots.insert(used(slots), slot);
            },
            ..ANY_ORDER
        }),
        "",
    ),
    (
        "the order is not tested",
        both(Rules {
            damaged: |_, _| false,
            ..RIGHT
        }),
        "lists",
    ),
    (
        "any order of the card is sound",
        on_card(ANY_ORDER),
        "lists",
    ),
    (
        "any order of the chip is sound",
        on_chip(ANY_ORDER),
        "lists",
    ),
    ("holes of the card are sound", on_card(HOLES), "lists"),
    ("holes of the chip are sound", on_chip(HOLES), "lists"),
    (
        "one name twice is sound on the card",
        on_card(TWICE),
        "orders lists",
    ),
    (
        "one name twice is sound on the chip",
        on_chip(TWICE),
        "orders lists",
    ),
    (
        "the first two alone are tested",
        both(Rules {
            damaged: |slots, lower| {
                hole(slots) || twice(slots) || pair_in_disorder(slots, 0, lower)
            },
            ..RIGHT
        }),
        "orders lists",
    ),
    (
        "the first two are not tested",
        both(Rules {
            damaged: |slots, lower| {
                let rest = slots[1..].to_vec();
                hole(slots) || twice(slots) || disorder(&rest, lower)
            },
            ..RIGHT
        }),
        "lists",
    ),
    (
        "the last two are not tested",
        both(Rules {
            damaged: |slots, lower| {
                let front = slots[..used(slots).saturating_sub(1)].to_vec();
                hole(slots) || twice(slots) || disorder(&front, lower)
            },
            ..RIGHT
        }),
        "lists",
    ),
    (
        "10 after the card has moved",
        on_card(Rules {
            refuse: move_on,
            ..RIGHT
        }),
        "lists",
    ),
    (
        "10 after the chip has moved",
        on_chip(Rules {
            refuse: move_on,
            ..RIGHT
        }),
        "lists",
    ),
    (
        "reset refuses disorder",
        Build {
            answers: |call, card, answer| {
                let sound = Card::right_length(card) && Card::decode(card).is_some();
                if matches!(call, Call::Reset) && answer.number == 0 && !sound {
                    (answer.number, answer.card) = (2, card.to_vec());
                }
            },
            ..SOUND
        },
        "orders lists",
    ),
    (
        "a walk does not test the order",
        Build {
            answers: |call, card, answer| {
                if let (Call::Walk { prefix, start, .. }, 2) = (call, answer.number) {
                    let free_chip = vec![0; answer.chip.len()];
                    if shaped(card, &answer.chip)
                        && calls::answer(card, &free_chip, call).0.number == 2
                    {
                        walk(&slots_of::<area::Place>(card), prefix, *start, call, answer);
                    }
                }
            },
            ..SOUND
        },
        "lists",
    ),
    (
        "a walk counts from the end",
        Build {
            answers: |call, card, answer| {
                if let (Call::Walk { prefix, .. }, 0) = (call, answer.number) {
                    let slots = slots_of::<area::Place>(card);
                    let shown = |slot: &Vec<u8>| !free(slot) && name_of(slot).starts_with(prefix);
                    let last = slots.iter().rposition(shown).expect("one was found");
                    walk(&slots, prefix, last, call, answer);
                }
            },
            ..SOUND
        },
        "orders lists",
    ),
];

const CHECKS: [(&str, Tells); 5] = [
    ("sorted", |library| told(sorted::each(library))),
    ("edges", |library| {
        let file = format!("{}/14-sorted.tsv", edges::FOLDER);
        let text = fs::read(file).expect("the file of these edges");
        edges::run(library, "14", &text).is_err()
    }),
    ("orders", |library| {
        told(orders::each(library, |name| name.ends_with("-disordered")))
    }),
    ("stories", |library| {
        let story = |index| generator::story(Rng::part(1, index));
        let check = |index| stories::check(&story(index), library, &mut Tally::default());
        (0..3000).any(|index| check(index).is_some())
    }),
    ("lists", |library| {
        let merge = |index| lists::merge(Rng::part(3, index));
        let check = |index| lists::check(&merge(index), library, &mut Tally::default());
        (0..200).any(|index| check(index).is_some())
    }),
];

fn told(mut checks: impl Iterator<Item = (String, Checked)>) -> bool {
    checks.any(|(_, checked)| checked.is_err())
}

#[test]
fn each_is_told() {
    let differs = |(name, build, expected): &(&str, Build, &str)| {
        let got = silent(&CHECKS, build);
        (got != *expected).then(|| format!("{name}: not told by {got:?}, but {expected:?}"))
    };
    let wrong: Vec<String> = IMPOSTORS.iter().filter_map(differs).collect();
    assert!(wrong.is_empty(), "{}", wrong.join("\n"));
}

/// A build by the right rules is told by none.
#[test]
fn the_rules_here_are_right() {
    for (check, tells) in CHECKS {
        assert!(!tells(&SOUND), "{check}");
    }
}
