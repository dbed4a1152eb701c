//! Wrong builds of 02, No. 5 that look right, and which checks tell each of them.

use crate::answer::{Answer, Why};
use crate::area::{self, Slot};
use crate::calls::{self, Call};
use crate::ciphers::Checked;
use crate::library::{silent, Faulty, Observed, Tells};
use crate::mix::{self, Mix, PREFIX};
use crate::record::Record;
use crate::rng::Rng;
use crate::tally::Tally;
use crate::{floats, generator, mixes, orders, stories};

/// A record as a search sees it: its name, and its data or get's number.
struct Seen {
    name: Vec<u8>,
    got: Result<Vec<u8>, u32>,
}

/// What a search sees that 1 and 2 don't refuse, in the order of the places.
struct Sight {
    session: u64,
    seen: Vec<Seen>,
    /// The chip alone has a name with "mix/" in front.
    on_chip: bool,
}

/// A record that is tried: its session and its bytes, or the number that it decides by.
type Held = Result<(u64, Vec<u8>), u32>;
type Found = Result<Vec<u8>, u32>;

impl Sight {
    fn of(call: &Call, answer: &Answer) -> Option<Sight> {
        let (key, session) = match call {
            Call::FindMix { key, session, .. } => (key, *session),
            _ => return None,
        };
        if let 1 | 2 = answer.number {
            return None;
        }
        let (card, chip) = area::decode(&answer.card, &answer.chip).ok()?;
        let key = calls::device_key(key).ok()?;
        let see = |name: &[u8]| {
            let record = calls::readable(&card, &chip, &key, name);
            let got = record.map(|record| record.data(&key, name));
            let name = name.to_vec();
            let got = got.map_err(Why::number);
            Seen { name, got }
        };
        let alone = |name: &[u8]| name.starts_with(PREFIX) && card.find(name).is_none();
        let on_chip = chip.used().any(|(_, entry)| alone(entry.name()));
        Some(Sight {
            session,
            seen: card.used().map(|(_, place)| see(place.name())).collect(),
            on_chip,
        })
    }

    /// The records of these names, with what these rules take for a mix.
    fn held(&self, named: fn(&[u8]) -> bool, rules: &Rules) -> Vec<Held> {
        let judge = |data: &Vec<u8>| match rules.take(data) {
            true => Ok((session_of(data), data.clone())),
            false => Err(20),
        };
        let seen = self.seen.iter().filter(|seen| named(&seen.name));
        let held = seen.map(|seen| seen.got.as_ref().map_err(|number| *number).and_then(judge));
        held.collect()
    }

    fn tried(&self) -> Vec<Held> {
        self.held(|name| name.starts_with(PREFIX), &RIGHT)
    }

    /// The bytes that hold the session.
    fn holding<'a>(&self, held: &'a [Held]) -> Vec<&'a Vec<u8>> {
        let good = held.iter().filter_map(|held| held.as_ref().ok());
        let own = good.filter(|(session, _)| *session == self.session);
        own.map(|(_, bytes)| bytes).collect()
    }

    /// As 02 says, of these records.
    fn right(&self, held: &[Held]) -> Found {
        match held.iter().find_map(|held| held.as_ref().err()) {
            Some(number) => Err(*number),
            None => one(&self.holding(held)),
        }
    }

    /// The same without those that are refused by some numbers.
    fn without(&self, skipped: fn(u32) -> bool) -> Found {
        let mut held = self.tried();
        held.retain(|held| !matches!(held, Err(number) if skipped(*number)));
        self.right(&held)
    }
}

fn one(found: &[&Vec<u8>]) -> Found {
    match found {
        [] => Err(6),
        [bytes] => Ok(bytes.to_vec()),
        _ => Err(21),
    }
}

fn session_of(bytes: &[u8]) -> u64 {
    let byte = |at: usize| bytes.get(at).copied().unwrap_or(0);
    u64::from_le_bytes(std::array::from_fn(byte))
}

/// What a build takes for a mix.
struct Rules {
    most: u8,
    /// Bytes may stand behind the last send, or be missing.
    length: fn(usize, usize) -> bool,
    tag: fn(u8) -> bool,
    level: fn(f32) -> bool,
    pan: fn(f32) -> bool,
    /// Of the bits that a muted send, and one without a pan, doesn't use.
    muted: fn(u32, u32) -> bool,
    panless: fn(u32) -> bool,
}

const RIGHT: Rules = Rules {
    most: 16,
    length: |there, due| there == due,
    tag: |tag| tag <= 2,
    level: |level| (0.0..=4.0).contains(&level),
    pan: |pan| (-1.0..=1.0).contains(&pan),
    muted: |level, pan| level == 0 && pan == 0,
    panless: |pan| pan == 0,
};

impl Rules {
    fn send(&self, tag: u8, level: u32, pan: u32) -> bool {
        let (l, p) = (f32::from_bits(level), f32::from_bits(pan));
        match tag {
            0 => (self.muted)(level, pan),
            1 => (self.level)(l) && (self.panless)(pan),
            2 => (self.level)(l) && (self.pan)(p),
            _ => (self.tag)(tag),
        }
    }

    fn take(&self, bytes: &[u8]) -> bool {
        if bytes.len() < 9 {
            return false;
        }
        let due = 9 + 9 * usize::from(bytes[8]);
        let number = |four: &[u8]| u32::from_le_bytes(four.try_into().expect("four bytes"));
        let mut sends = bytes[9..].chunks_exact(9).take(usize::from(bytes[8]));
        bytes[8] <= self.most
            && (self.length)(bytes.len(), due)
            && sends.all(|send| self.send(send[0], number(&send[1..5]), number(&send[5..9])))
    }

    /// The encoder's tests, after 1.
    fn encodes(&self, tags: &[u8], levels: &[u32], pans: &[u32]) -> bool {
        let used = |at: usize| match tags[at] {
            0 => self.send(0, 0, 0),
            1 => self.send(1, levels[at], 0),
            tag => self.send(tag, levels[at], pans[at]),
        };
        tags.len() <= usize::from(self.most) && (0..tags.len()).all(used)
    }
}

enum Wrong {
    Search(fn(&Sight) -> Found),
    Bytes(Rules),
    Answers(fn(&Call, &mut Answer)),
}

use Wrong::{Answers, Bytes, Search};

impl Wrong {
    fn spoil(&self, call: &Call, seen: &mut Observed) {
        let answer = &mut seen.answer;
        match self {
            Search(search) => {
                if let Some(sight) = Sight::of(call, answer) {
                    give(call, answer, search(&sight));
                }
            }
            Bytes(rules) => by_rules(rules, call, answer),
            Answers(change) => change(call, answer),
        }
    }
}

/// The search's answer with what was found in place of its own.
fn give(call: &Call, answer: &mut Answer, found: Found) {
    let buffer = call.output();
    match found {
        Ok(bytes) => {
            answer.number = 0;
            answer.returned = [bytes.len() as u64, 0];
            let fits = bytes.len().min(buffer.len());
            answer.output = calls::with_front(buffer, &bytes[..fits]);
        }
        Err(number) => {
            answer.number = number;
            answer.returned = [0; 2];
            answer.output = buffer.to_vec();
        }
    }
}

/// Each call with other rules of what is a mix; where it differs, the number will do.
fn by_rules(rules: &Rules, call: &Call, answer: &mut Answer) {
    let good = match call {
        Call::FindMix { .. } => {
            if let Some(sight) = Sight::of(call, answer) {
                let held = sight.held(|name| name.starts_with(PREFIX), rules);
                give(call, answer, sight.right(&held));
            }
            return;
        }
        Call::StoreMix { mix, .. } | Call::DecodeMix { mix, .. } => rules.take(mix),
        Call::EncodeMix {
            tags, levels, pans, ..
        } if answer.number != 1 => rules.encodes(tags, levels, pans),
        _ => return,
    };
    match (answer.number, good) {
        (20, true) => answer.number = 0,
        (0, false) => answer.number = 20,
        _ => {}
    }
}

/// The answer of a store that this test doesn't stop.
fn stored_anyway(call: &Call, answer: &mut Answer, front: bool) {
    if let Call::StoreMix {
        key,
        name,
        flags,
        iv,
        mix,
    } = call
    {
        let (key, iv) = (key.clone(), iv.clone());
        let set = Call::Set {
            key,
            name: name.clone(),
            flags: *flags,
            iv,
            data: mix.clone(),
        };
        if !front || name.starts_with(PREFIX) {
            *answer = calls::answer(&answer.card, &answer.chip, &set).0;
        }
    }
}

/// A refusal of a store by another test, where that fails too.
fn first(call: &Call, answer: &mut Answer, number: u32, tests: fn(u32) -> bool) {
    let mut other = answer.clone();
    if answer.number == number {
        stored_anyway(call, &mut other, false);
        if tests(other.number) {
            answer.number = other.number;
        }
    }
}

/// The chip without the names of records that lack replay protection.
fn without_downgraded(answer: &Answer) -> Vec<u8> {
    let (card, mut chip) = area::decode(&answer.card, &answer.chip).expect("sound areas");
    for (_, place) in card.used() {
        let record = Record::decode(&place.record);
        if record.map_or(false, |record| !record.flags.replay_protection()) {
            chip.take_out(&place.name);
        }
    }
    chip.encode()
}

const CHECKS: [(&str, Tells); 4] = [
    ("orders", |library| {
        // Some of them: the others differ in what stands before and behind.
        let asked = |name: &str| {
            let sends = matches!(name, "store_mix-new" | "encode_mix" | "decode_mix");
            let searches = ["find_mix-planted", "find_mix-twice", "find_mix-absent"];
            sends || searches.contains(&name)
        };
        told(orders::each(library, asked))
    }),
    ("mixes", |library| told(mixes::each(library))),
    ("floats", |library| {
        floats::called(library, Rng::new(1), 500).is_err()
    }),
    ("stories", |library| {
        let story = |index| generator::story(Rng::part(1, index));
        let check = |index| stories::check(&story(index), library, &mut Tally::default());
        (0..1000).any(|index| check(index).is_some())
    }),
];

fn told(mut checks: impl Iterator<Item = (String, Checked)>) -> bool {
    checks.any(|(_, checked)| checked.is_err())
}

fn bits(number: f32) -> u32 {
    number.to_bits()
}

/// Each with the checks that can't tell it: `floats` looks at single sends, and an order
/// at refusals alone.
const IMPOSTORS: [(&str, Wrong, &str); 51] = [
    (
        "the first match is given",
        Search(|it| match (it.right(&it.tried()), it.tried()) {
            (Err(21), held) => Ok(it.holding(&held)[0].clone()),
            (found, _) => found,
        }),
        "floats",
    ),
    (
        "the last match is given",
        Search(|it| match (it.right(&it.tried()), it.tried()) {
            (Err(21), held) => Ok(it.holding(&held).pop().expect("two").clone()),
            (found, _) => found,
        }),
        "floats",
    ),
    (
        "the search ends at its first match",
        Search(|it| {
            let mut held = it.tried();
            let own = |held: &Held| matches!(held, Ok((session, _)) if *session == it.session);
            let end = held.iter().position(own).map_or(held.len(), |at| at + 1);
            held.truncate(end);
            it.right(&held)
        }),
        "floats",
    ),
    (
        "bad records are skipped",
        Search(|it| it.without(|_| true)),
        "floats",
    ),
    (
        "bad bytes are skipped",
        Search(|it| it.without(|number| number == 20)),
        "floats",
    ),
    (
        "what get refuses is skipped",
        Search(|it| it.without(|number| number != 20)),
        "floats",
    ),
    (
        "old records are skipped",
        Search(|it| it.without(|number| number == 12)),
        "floats",
    ),
    (
        "the lowest accepted match is given",
        Search(|it| {
            let held = it.tried();
            it.holding(&held)
                .first()
                .map_or(Err(6), |bytes| Ok(bytes.to_vec()))
        }),
        "floats",
    ),
    (
        "the lowest accepted record is given",
        Search(|it| {
            let good = it.tried().into_iter().find_map(Result::ok);
            good.map_or(Err(6), |(_, bytes)| Ok(bytes))
        }),
        "floats",
    ),
    (
        "records without replay protection are served",
        Answers(|call, answer| {
            let why = calls::answer(&answer.card, &answer.chip, call).1;
            if let (Call::FindMix { .. }, Some(Why::Downgraded)) = (call, why) {
                let chip = answer.chip.clone();
                let unasked = without_downgraded(answer);
                let found = calls::answer(&answer.card, &unasked, call).0;
                *answer = Answer { chip, ..found };
            }
        }),
        "floats",
    ),
    (
        "store is done without replay protection",
        Answers(|call, answer| {
            if let (Call::StoreMix { .. }, 12) = (call, answer.number) {
                let free = vec![0; answer.chip.len()];
                let stored = calls::answer(&answer.card, &free, call).0;
                let chip = answer.chip.clone();
                *answer = Answer { chip, ..stored };
            }
        }),
        "orders mixes floats",
    ),
    (
        "two are as none",
        Search(|it| {
            it.right(&it.tried())
                .map_err(|number| if number == 21 { 6 } else { number })
        }),
        "floats",
    ),
    (
        "6 before the records",
        Search(|it| match it.holding(&it.tried())[..] {
            [] => Err(6),
            _ => it.right(&it.tried()),
        }),
        "floats",
    ),
    (
        "21 before the records",
        Search(|it| match it.holding(&it.tried())[..] {
            [_, _, ..] => Err(21),
            _ => it.right(&it.tried()),
        }),
        "orders floats",
    ),
    (
        "the highest bad record decides",
        Search(
            |it| match it.tried().iter().rev().find_map(|held| held.as_ref().err()) {
                Some(number) => Err(*number),
                None => it.right(&it.tried()),
            },
        ),
        "floats",
    ),
    (
        "the lowest number decides",
        Search(|it| {
            match it
                .tried()
                .iter()
                .filter_map(|held| held.as_ref().err())
                .min()
            {
                Some(number) => Err(*number),
                None => it.right(&it.tried()),
            }
        }),
        "floats",
    ),
    (
        "bytes are judged after all gets",
        Search(|it| {
            let held = it.tried();
            let refused = held.iter().filter_map(|held| held.as_ref().err());
            match refused.into_iter().find(|number| **number != 20) {
                Some(number) => Err(*number),
                None => it.right(&held),
            }
        }),
        "floats",
    ),
    (
        "a refused record is 20",
        Search(|it| {
            let number = |number| if let 8 | 11 | 12 = number { 20 } else { number };
            it.right(&it.tried()).map_err(number)
        }),
        "floats",
    ),
    (
        "bad bytes are 8",
        Search(|it| {
            it.right(&it.tried())
                .map_err(|number| if number == 20 { 8 } else { number })
        }),
        "floats",
    ),
    (
        "a name on the chip alone is 12",
        Search(|it| match it.on_chip {
            true => Err(12),
            false => it.right(&it.tried()),
        }),
        "orders floats",
    ),
    (
        "every name is tried",
        Search(|it| it.right(&it.held(|_| true, &RIGHT))),
        "floats",
    ),
    (
        "\"mix\" is enough in front",
        Search(|it| it.right(&it.held(|name| name.starts_with(b"mix"), &RIGHT))),
        "orders floats",
    ),
    (
        "\"mix/\" anywhere is tried",
        Search(|it| {
            let within = |name: &[u8]| name.windows(4).any(|four| four == PREFIX);
            it.right(&it.held(within, &RIGHT))
        }),
        "orders floats",
    ),
    (
        "\"Mix/\" is tried",
        Search(|it| {
            let any = |name: &[u8]| name.to_ascii_lowercase().starts_with(PREFIX);
            it.right(&it.held(any, &RIGHT))
        }),
        "orders floats",
    ),
    (
        "\"mix/\" alone is not tried",
        Search(|it| {
            let longer = |name: &[u8]| name.len() > 4 && name.starts_with(PREFIX);
            it.right(&it.held(longer, &RIGHT))
        }),
        "orders floats",
    ),
    (
        "32 bits of a session are compared",
        Search(|it| {
            let mut held = it.tried();
            for (session, _) in held.iter_mut().flatten() {
                if *session as u32 == it.session as u32 {
                    *session = it.session;
                }
            }
            it.right(&held)
        }),
        "floats",
    ),
    (
        "a done search clears the rest",
        Answers(|call, answer| {
            if let (Call::FindMix { .. }, 0) = (call, answer.number) {
                let count = answer.returned[0] as usize;
                answer.output[count..].fill(0);
            }
        }),
        "orders floats",
    ),
    (
        "a refused search clears the buffer",
        Answers(|call, answer| {
            if let (Call::FindMix { .. }, 6 | 20 | 21) = (call, answer.number) {
                answer.output.fill(0);
            }
        }),
        "floats",
    ),
    (
        "a buffer is long enough for the mix found",
        Answers(|call, answer| {
            if let (Call::FindMix { mix_buffer, .. }, 1) = (call, answer.number) {
                let longer = Call::FindMix {
                    key: b"no key".to_vec(),
                    session: 0,
                    mix_buffer: vec![0; 153],
                };
                // Any 1 but the buffer's own leaves the call as it is.
                let alone = mix_buffer.len() < 153 && mix_buffer.len() >= 18;
                if alone && calls::answer(&answer.card, &answer.chip, &longer).0.number == 1 {
                    answer.number = 6;
                }
            }
        }),
        "floats",
    ),
    (
        "store judges no bytes",
        Answers(|call, answer| {
            if answer.number == 20 {
                stored_anyway(call, answer, true);
            }
        }),
        "floats",
    ),
    (
        "store asks for no front",
        Answers(|call, answer| match call {
            Call::StoreMix { name, .. } if answer.number == 3 && !name.starts_with(PREFIX) => {
                stored_anyway(call, answer, false);
            }
            _ => {}
        }),
        "floats",
    ),
    (
        "store gives 1 before 20",
        Answers(|call, answer| first(call, answer, 20, |number| number == 1)),
        "mixes floats",
    ),
    (
        "store gives 2 before 20",
        Answers(|call, answer| first(call, answer, 20, |number| number == 2)),
        "mixes floats",
    ),
    (
        "store gives 3 before 20",
        Answers(|call, answer| match call {
            Call::StoreMix { name, .. } if answer.number == 20 && !name.starts_with(PREFIX) => {
                answer.number = 3;
            }
            _ => {}
        }),
        "mixes floats",
    ),
    (
        "store judges the bytes last",
        Answers(|call, answer| first(call, answer, 20, |number| number != 0)),
        "floats",
    ),
    (
        "store asks for the front where set asks for the name",
        Answers(|call, answer| match call {
            Call::StoreMix { name, .. } if !name.starts_with(PREFIX) => {
                first(call, answer, 3, |number| matches!(number, 1 | 2));
            }
            _ => {}
        }),
        "mixes floats",
    ),
    (
        "a level's unused bytes may be a pan",
        Bytes(Rules {
            panless: |pan| (-1.0..=1.0).contains(&f32::from_bits(pan)),
            ..RIGHT
        }),
        "orders floats",
    ),
    (
        "a level's unused bytes may be minus zero",
        Bytes(Rules {
            panless: |pan| f32::from_bits(pan) == 0.0,
            ..RIGHT
        }),
        "orders floats",
    ),
    (
        "a muted send's bytes may be anything",
        Bytes(Rules {
            muted: |_, _| true,
            ..RIGHT
        }),
        "orders floats",
    ),
    (
        "NaN is let in",
        Bytes(Rules {
            // As !(level > 4.0) does.
            level: |level| level.is_nan() || (0.0..=4.0).contains(&level),
            pan: |pan| pan.is_nan() || (-1.0..=1.0).contains(&pan),
            ..RIGHT
        }),
        "",
    ),
    (
        "a level is at most 4",
        Bytes(Rules {
            level: |level| level <= 4.0,
            ..RIGHT
        }),
        "orders",
    ),
    (
        "4 is out",
        Bytes(Rules {
            level: |level| (0.0..4.0).contains(&level),
            ..RIGHT
        }),
        "",
    ),
    (
        "minus zero is no level",
        Bytes(Rules {
            level: |level| bits(level) <= bits(4.0),
            ..RIGHT
        }),
        "orders",
    ),
    (
        "minus one is no pan",
        Bytes(Rules {
            pan: |pan| pan > -1.0 && pan <= 1.0,
            ..RIGHT
        }),
        "",
    ),
    (
        "a pan has a level's range",
        Bytes(Rules {
            pan: |pan| (0.0..=4.0).contains(&pan),
            ..RIGHT
        }),
        "",
    ),
    (
        "subnormals count as zero",
        Bytes(Rules {
            level: |level| level > -f32::MIN_POSITIVE && level <= 4.0,
            ..RIGHT
        }),
        "orders",
    ),
    (
        "sixteen sends are too many",
        Bytes(Rules { most: 15, ..RIGHT }),
        "orders floats",
    ),
    (
        "seventeen sends are few enough",
        Bytes(Rules { most: 17, ..RIGHT }),
        "floats",
    ),
    (
        "bytes may stand behind the sends",
        Bytes(Rules {
            length: |there, due| there >= due,
            ..RIGHT
        }),
        "floats",
    ),
    (
        "an unknown tag is muted",
        Bytes(Rules {
            tag: |_| true,
            ..RIGHT
        }),
        "floats",
    ),
    (
        "minus zero is kept as zero",
        Answers(|call, answer| match call {
            Call::EncodeMix { .. } if answer.number == 0 => {
                let kept = Mix::decode(&answer.output[..answer.returned[0] as usize]);
                let mut kept = kept.expect("a mix");
                for send in &mut kept.sends {
                    let plain = |bits: u32| if bits == 1 << 31 { 0 } else { bits };
                    let (level, pan) = (plain(send.level()), plain(send.pan()));
                    *send = mix::Send::tagged(send.tag(), level, pan).expect("a tag");
                }
                answer.output = calls::with_front(&answer.output, &kept.encode());
            }
            Call::DecodeMix { .. } if answer.number == 0 => {
                let floats = answer.levels.iter_mut().chain(&mut answer.pans);
                for bits in floats.filter(|bits| **bits == 1 << 31) {
                    *bits = 0;
                }
            }
            _ => {}
        }),
        "orders",
    ),
];

#[test]
fn each_is_told() {
    let differs = |(name, wrong, expected): &(&str, Wrong, &str)| {
        let library = Faulty(|call: &Call, seen: &mut Observed| wrong.spoil(call, seen));
        let got = silent(&CHECKS, &library);
        (got != *expected).then(|| format!("{name}: not told by {got:?}, but {expected:?}"))
    };
    let wrong: Vec<String> = IMPOSTORS.iter().filter_map(differs).collect();
    assert!(wrong.is_empty(), "{}", wrong.join("\n"));
}

/// A build by other words of the same rules is told by none.
#[test]
fn the_rules_here_are_right() {
    for right in [Bytes(RIGHT), Search(|it| it.right(&it.tried()))] {
        let library = Faulty(|call: &Call, seen: &mut Observed| right.spoil(call, seen));
        assert!(CHECKS.iter().all(|(_, tells)| !tells(&library)));
    }
}
