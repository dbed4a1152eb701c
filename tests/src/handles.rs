//! 02, No. 2: the fields of a handle and the lent lengths at their edges and past
//! them, each with each, compared with the reference.

use crate::area::{Card, Chip, Entry, Place, ENTRY, NAME_MAX, PLACE};
use crate::calls::Call;
use crate::ciphers::Checked;
use crate::handle::{Handle, STAGING};
use crate::library::Library;
use crate::record::{Flags, Record};
use crate::stories::compare;

const KEY: [u8; 16] = *b"0123456789abcdef";
const IV: [u8; 8] = *b"iv-iv-iv";
/// Confidentiality, integrity and replay protection.
const FLAGS: u32 = 14;
const NAME_LENGTHS: [u32; 9] = [0, 1, 63, 64, 65, 256, 257, 1 << 16, u32::MAX];
const DECLARED: [u32; 9] = [0, 1, 479, 480, 481, 736, 1 << 16, 1 << 31, u32::MAX];
/// The bytes of a name, all 64 of them whatever its length is.
const FILLINGS: [[u8; NAME_MAX]; 3] = [[b'n'; NAME_MAX], [0; NAME_MAX], [0x7f; NAME_MAX]];
const ODD_STAGINGS: [usize; 4] = [0, 479, 481, 960];

/// How often each number was answered, and that each of them was.
#[derive(Default)]
struct Numbers(std::collections::BTreeMap<u32, usize>);

impl Numbers {
    fn count(&mut self, number: u32) {
        *self.0.entry(number).or_default() += 1;
    }

    fn verdict(&self, due: &[u32]) -> Checked {
        let told: Vec<String> = self
            .0
            .iter()
            .map(|(n, times)| format!("{n} {times}"))
            .collect();
        let told = told.join(", ");
        if self.0.keys().eq(due) {
            Ok(format!("{} calls: {told}", self.0.values().sum::<usize>()))
        } else {
            Err(format!("answered {told}, due {due:?}"))
        }
    }
}

fn starts(library: &dyn Library) -> Checked {
    let mut numbers = Numbers::default();
    let declared = [
        0,
        1,
        479,
        480,
        481,
        1 << 16,
        1 << 32,
        (1 << 32) + 1,
        usize::MAX,
    ];
    for filling in [b'n', 0, 0x7f, 0xff] {
        for length in [0, 1, 63, 64, 65, 200, 255, 256, 257, 320] {
            for iv in [0, 7, 8, 9, 16] {
                for declared in declared {
                    for flags in [0, FLAGS, 8, u32::MAX] {
                        let call = Call::SetStart {
                            name: vec![filling; length],
                            flags,
                            iv: IV.repeat(2)[..iv].to_vec(),
                            declared,
                            handle: [0xee; 88],
                        };
                        numbers.count(compare(library, &[], &[], &call)?);
                    }
                }
            }
        }
    }
    numbers.verdict(&[0, 1, 3, 5])
}

/// Every handle of the edges; the count at those of the declared size too.
fn handles() -> Vec<Handle> {
    let mut handles = Vec::new();
    for name in FILLINGS {
        for name_length in NAME_LENGTHS {
            for declared in DECLARED {
                let near = [declared.wrapping_sub(1), declared, declared.wrapping_add(1)];
                let mut counts = vec![0, 1, 480, 481, 1 << 16, u32::MAX];
                counts.extend(near);
                counts.sort_unstable();
                counts.dedup();
                handles.extend(counts.into_iter().map(|count| Handle {
                    name,
                    name_length,
                    flags: FLAGS,
                    iv: IV,
                    declared,
                    count,
                }));
            }
        }
    }
    handles
}

fn adds(library: &dyn Library) -> Checked {
    let mut numbers = Numbers::default();
    let mut add = |handle: &Handle, staging: usize, chunk: usize| {
        let call = Call::SetAddData {
            handle: handle.encode(),
            staging: vec![0xee; staging],
            chunk: (0..chunk).map(|at| at as u8).collect(),
        };
        compare(library, &[], &[], &call).map(|number| numbers.count(number))
    };
    for handle in handles() {
        let rest = handle.declared.saturating_sub(handle.count).min(1000) as usize;
        let mut chunks = vec![0, 1, rest, rest + 1, 480, 481];
        chunks.sort_unstable();
        chunks.dedup();
        // Long ones take their time, so not with each handle.
        if handle.name_length == 64 {
            chunks.push((1 << 16) + rest);
        }
        for chunk in chunks {
            add(&handle, STAGING, chunk)?;
        }
        for staging in ODD_STAGINGS {
            add(&handle, staging, 0)?;
            add(&handle, staging, rest)?;
        }
    }
    numbers.verdict(&[0, 1, 19])
}

/// Cards and chips: with a free slot, full, full with the name, damaged, of a
/// wrong length.
fn areas() -> Vec<(Vec<u8>, Vec<u8>)> {
    let flags = Flags::accept(FLAGS).expect("good flags");
    let with = |name: &[u8], slots: usize| {
        let record = Record::seal(&KEY, name, flags, &IV, b"old");
        let (mut card, mut chip) = (Card::free(slots), Chip::free(slots));
        card.put(Place {
            name: name.to_vec(),
            record: record.encode(),
        });
        chip.put(Entry {
            name: name.to_vec(),
            cmac: record.cmac,
        });
        (card.encode(), chip.encode())
    };
    let (roomy, full) = (with(b"other", 2), with(b"other", 1));
    let known = with(&[b'n'; NAME_MAX], 1);
    let [mut card, mut chip, mut long_card, mut long_chip] = [(); 4].map(|_| roomy.clone());
    card.0[PLACE] = 2;
    chip.1[ENTRY] = 2;
    long_card.0.push(0);
    long_chip.1.push(0);
    vec![roomy, full, known, card, chip, long_card, long_chip]
}

fn finalizes(library: &dyn Library) -> Checked {
    let mut numbers = Numbers::default();
    let mut finalize = |area: &(Vec<u8>, Vec<u8>), key: usize, handle: &Handle, staging: usize| {
        let call = Call::SetFinalize {
            key: KEY.repeat(2)[..key].to_vec(),
            handle: handle.encode(),
            staging: (0..staging).map(|at| at as u8).collect(),
        };
        compare(library, &area.0, &area.1, &call).map(|number| numbers.count(number))
    };
    let areas = areas();
    for handle in handles() {
        for area in &areas {
            finalize(area, 16, &handle, STAGING)?;
        }
        for staging in ODD_STAGINGS {
            finalize(&areas[0], 16, &handle, staging)?;
        }
        for key in [0, 15, 17, 32] {
            finalize(&areas[0], key, &handle, STAGING)?;
        }
    }
    for flags in [1, 8, 13, 15, 16, 1 << 31, u32::MAX] {
        let mut handle = Handle::start(&[b'n'; NAME_MAX], flags, IV, 3).expect("64 bytes");
        handle.count = 3;
        for area in &areas {
            finalize(area, 16, &handle, STAGING)?;
        }
    }
    numbers.verdict(&[0, 1, 2, 3, 4, 7, 10, 19])
}

pub fn checks(library: &dyn Library) -> Vec<(String, Checked)> {
    vec![
        ("handle-edges-set_start".into(), starts(library)),
        ("handle-edges-set_add_data".into(), adds(library)),
        ("handle-edges-set_finalize".into(), finalizes(library)),
    ]
}

#[cfg(test)]
mod tests {
    use super::*;
    use crate::calls;
    use crate::library::{Faulty, Observed, Reference};

    #[test]
    fn the_edges_meet_every_number() {
        for (name, checked) in checks(&Reference) {
            assert!(checked.is_ok(), "{name}: {checked:?}");
        }
    }

    type Fault = fn(&Call, &mut Observed);

    /// The handle stays as lent.
    fn leave(call: &Call, seen: &mut Observed) {
        if matches!(call, Call::SetStart { .. }) && seen.answer.number != 0 {
            seen.answer.handle = call.handle().to_vec();
        }
    }

    /// The chunk goes to the front of the staging buffer.
    fn to_front(call: &Call, seen: &mut Observed) {
        if let (Call::SetAddData { staging, chunk, .. }, 0) = (call, seen.answer.number) {
            seen.answer.output = calls::with_front(staging, chunk);
        }
    }

    /// A refused chunk is counted all the same.
    fn count_refused(call: &Call, seen: &mut Observed) {
        if matches!(call, Call::SetAddData { .. }) && seen.answer.number == 19 {
            seen.answer.handle[84] ^= 1;
        }
    }

    fn trust(call: &Call, seen: &mut Observed) {
        if matches!(call, Call::SetFinalize { .. }) && seen.answer.number == 19 {
            seen.answer.number = 3;
        }
    }

    #[test]
    fn a_wrong_call_is_told() {
        let faults: [(usize, Fault, &str); 4] = [
            (
                0,
                leave,
                "handle differs first at byte 0: expected 00, got ee",
            ),
            (1, to_front, "output differs first"),
            (1, count_refused, "handle differs first at byte 84"),
            (2, trust, "number: expected 19, got 3"),
        ];
        for (wrong, fault, expected) in faults {
            for (at, (name, checked)) in checks(&Faulty(fault)).into_iter().enumerate() {
                assert_eq!(checked.is_err(), at == wrong, "{name}");
                let why = checked.err().unwrap_or_else(|| expected.into());
                assert!(why.starts_with(expected), "{why}");
            }
        }
    }
}
