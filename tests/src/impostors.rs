//! Wrong builds of 02, No. 4 that look right, and which checks tell each of them.

use std::fs;

use crate::answer::{Answer, Why};
use crate::area::{self, Chip};
use crate::calls::{self, Call};
use crate::cards::World;
use crate::ciphers::Checked;
use crate::library::{silent, Faulty, Observed, Tells};
use crate::record::{Flags, Record};
use crate::rng::Rng;
use crate::tally::Tally;
use crate::{downgrades, edges, generator, lists, orders, stories};

/// A call under a name that the chip holds, which was refused or only reads: card and
/// chip are still as lent.
struct Sight<'a> {
    call: &'a Call,
    record: Option<Record>,
    cmac: [u8; 16],
    /// The answer by 01 alone.
    old: Answer,
}

impl Sight<'_> {
    fn of<'a>(call: &'a Call, answer: &Answer) -> Option<Sight<'a>> {
        let name = call.name()?;
        area::test_lengths(&answer.card, &answer.chip).ok()?;
        let (card, mut chip) = area::decode(&answer.card, &answer.chip).ok()?;
        let cmac = chip.find(&name)?.cmac;
        let place = card.find(&name);
        // By 01 the entry is asked by 7 alone, which stands before.
        chip.take_out(&name);
        let old = calls::answer(&answer.card, &chip.encode(), call).0;
        Some(Sight {
            call,
            record: place.and_then(|place| Record::decode(&place.record)),
            cmac,
            old: Answer {
                chip: answer.chip.clone(),
                ..old
            },
        })
    }

    fn is(&self, kind: &str) -> bool {
        Call::KINDS[self.call.kind()] == kind
    }

    fn sets(&self) -> bool {
        self.call.flags().is_some()
    }

    /// The flags that are set or read.
    fn flags(&self) -> Option<Flags> {
        let read = self.record.as_ref().map(|record| record.flags);
        self.call.flags().map_or(read, Flags::accept)
    }

    fn bits(&self) -> u32 {
        self.flags().map_or(0, Flags::bits)
    }

    fn same_cmac(&self) -> bool {
        let record = self.record.as_ref();
        record.map_or(false, |record| record.cmac == self.cmac)
    }

    fn past_offset_0(&self) -> bool {
        matches!(self.call, Call::Get { offset: 1.., .. })
    }
}

enum Wrong {
    /// Leaves the rule out where this says so.
    Unless(fn(&Sight) -> bool),
    /// Makes the test before that of another number.
    Before(u32),
    /// Does another thing to a done remove of a record without flag 8.
    Remove(fn(&mut Answer, &[u8])),
}

use Wrong::{Before, Remove, Unless};

impl Wrong {
    fn spoil(&self, call: &Call, seen: &mut Observed) {
        let answer = &mut seen.answer;
        match (self, answer.number) {
            (Unless(looks_away), 12) => {
                let why = calls::answer(&answer.card, &answer.chip, call).1;
                let sight = Sight::of(call, answer).filter(|_| why == Some(Why::Downgraded));
                if let Some(sight) = sight.filter(|sight| looks_away(sight)) {
                    *answer = sight.old;
                }
            }
            (Before(number), got) if *number == got && !matches!(call, Call::Remove { .. }) => {
                let flags = Sight::of(call, answer).map(|sight| sight.bits());
                if flags.map_or(false, |flags| flags & 8 == 0) {
                    answer.number = 12;
                }
            }
            (Remove(change), 0) => {
                if let Call::Remove { name } = call {
                    change(answer, name);
                }
            }
            _ => {}
        }
    }
}

/// Clears the entry that is still there.
fn clear_entry(answer: &mut Answer, name: &[u8]) {
    let mut chip = Chip::decode(&answer.chip).expect("a sound chip");
    chip.take_out(name);
    answer.chip = chip.encode();
}

/// Refuses where an entry is still there.
fn refuse(answer: &mut Answer, name: &[u8]) {
    let chip = Chip::decode(&answer.chip).expect("a sound chip");
    if chip.find(name).is_some() {
        answer.number = 12;
    }
}

/// Each with the checks that can't tell it. Those of cards and lists make no calls for
/// keys, and those of cards only read; no set makes a chip with the CMAC of a record
/// without flag 8; the lists have room for all; an order tells refusals alone.
const IMPOSTORS: [(&str, Wrong, &str); 26] = [
    ("reads serve it", Unless(|it| !it.sets()), ""),
    ("get serves it", Unless(|it| it.is("get")), ""),
    ("info serves it", Unless(|it| it.is("info")), ""),
    ("load serves it", Unless(|it| it.is("load")), "cards lists"),
    (
        "reads past offset 0 serve it",
        Unless(|it| it.past_offset_0()),
        "",
    ),
    (
        "get of no bytes is done",
        Unless(|it| it.is("get") && it.old.number == 0 && it.old.returned[0] == 0),
        "orders",
    ),
    (
        "reads refuse flags 0 alone",
        Unless(|it| !it.sets() && it.bits() != 0),
        "",
    ),
    (
        "reads refuse no record with integrity",
        Unless(|it| !it.sets() && it.bits() & 4 != 0),
        "",
    ),
    (
        "reads refuse only records with integrity",
        Unless(|it| !it.sets() && it.bits() & 4 == 0),
        "",
    ),
    (
        "reads serve a record of the chip's CMAC",
        Unless(|it| !it.sets() && it.same_cmac()),
        "orders cards",
    ),
    ("12 before 8", Before(8), ""),
    ("12 before 11", Before(11), ""),
    ("12 after 14", Unless(|it| it.old.number == 14), ""),
    (
        "12 after 13",
        Unless(|it| it.old.number == 13),
        "downgrades cards lists",
    ),
    ("sets are done", Unless(|it| it.sets()), "cards"),
    ("set is done", Unless(|it| it.is("set")), "cards"),
    ("keep is done", Unless(|it| it.is("keep")), "cards lists"),
    (
        "set_finalize is done",
        Unless(|it| it.is("set_finalize")),
        "cards",
    ),
    (
        "sets with flags 0 alone are refused",
        Unless(|it| it.sets() && it.bits() != 0),
        "cards",
    ),
    (
        "sets are refused where the card lacks the name",
        Unless(|it| it.sets() && it.record.is_some()),
        "cards",
    ),
    (
        "sets are refused where the card holds the name",
        Unless(|it| it.sets() && it.record.is_none()),
        "cards",
    ),
    ("12 before 7", Before(7), "cards"),
    ("12 before 9", Before(9), "cards"),
    (
        "12 after 10",
        Unless(|it| it.old.number == 10),
        "cards lists",
    ),
    (
        "remove clears the entry",
        Remove(clear_entry),
        "orders cards",
    ),
    ("remove is refused", Remove(refuse), "orders cards"),
];

fn told(mut checks: impl Iterator<Item = (String, Checked)>) -> bool {
    checks.any(|(_, checked)| checked.is_err())
}

const CHECKS: [(&str, Tells); 6] = [
    ("orders", |library| {
        let asked = |name: &str| name.contains("downgrade") || name.contains("planted");
        told(orders::each(library, asked))
    }),
    ("downgrades", |library| {
        told(downgrades::checks(library, 1).into_iter())
    }),
    ("edges", |library| {
        let file = format!("{}/12-downgrade.tsv", edges::FOLDER);
        let text = fs::read(file).expect("the file of these edges");
        edges::run(library, "12", &text).is_err()
    }),
    ("cards", |library| {
        let world = World::new(library, Rng::new(1)).expect("accepted sets");
        let check = |index| world.check(Rng::part(1, index), library, &mut Tally::default());
        (0..500).any(|index| check(index).is_some())
    }),
    ("stories", |library| {
        let story = |index| generator::story(Rng::part(1, index));
        let check = |index| stories::check(&story(index), library, &mut Tally::default());
        (0..1500).any(|index| check(index).is_some())
    }),
    ("lists", |library| {
        let merge = |index| lists::merge(Rng::part(3, index));
        let check = |index| lists::check(&merge(index), library, &mut Tally::default());
        (0..500).any(|index| check(index).is_some())
    }),
];

#[test]
fn each_is_told() {
    let differs = |(name, wrong, expected): &(&str, Wrong, &str)| {
        let library = Faulty(|call: &Call, seen: &mut Observed| wrong.spoil(call, seen));
        let got = silent(&CHECKS, &library);
        (got != *expected).then(|| format!("{name}: not told by {got:?}, but {expected:?}"))
    };
    let wrong: Vec<String> = IMPOSTORS.iter().filter_map(differs).collect();
    assert!(wrong.is_empty(), "{}", wrong.join("\n"));
}
