//! 02, No. 1: every byte wherever a name's byte is judged, with the answers
//! written by hand.

use crate::answer::Answer;
use crate::area::{ENTRY, NAME_MAX, PLACE};
use crate::calls::Call;
use crate::ciphers::Checked;
use crate::handle::STAGING;
use crate::library::Library;

const KEY: [u8; 16] = *b"0123456789abcdef";
const IV: [u8; 8] = *b"iv-iv-iv";
const DATA: &[u8] = b"data";
/// Confidentiality, integrity and replay protection.
const FLAGS: u32 = 14;

/// "control bytes and 0x7F stay out"
fn stays_out(byte: u8) -> bool {
    byte < 0x20 || byte == 0x7f
}

/// The byte alone, and as the first, a middle and the last one of 64.
fn names(byte: u8) -> Vec<Vec<u8>> {
    let mut names = vec![vec![byte]];
    for at in [0, 31, NAME_MAX - 1] {
        let mut name = vec![b'n'; NAME_MAX];
        name[at] = byte;
        names.push(name);
    }
    names
}

fn get(name: &[u8]) -> Call {
    Call::Get {
        key: KEY.to_vec(),
        name: name.to_vec(),
        offset: 0,
        output: vec![0xee; DATA.len()],
    }
}

fn reading(name: &[u8]) -> Vec<Call> {
    vec![
        get(name),
        Call::Info {
            key: KEY.to_vec(),
            name: name.to_vec(),
        },
        Call::Remove {
            name: name.to_vec(),
        },
        Call::Walk {
            prefix: name.to_vec(),
            start: 0,
            name_buffer: vec![0xee; NAME_MAX],
        },
    ]
}

/// A used place with a record of no data, and a used entry.
fn place(name: &[u8]) -> Vec<u8> {
    let mut bytes = vec![1, name.len() as u8, 36, 0];
    bytes.extend(name);
    bytes.resize(4 + NAME_MAX, 0);
    bytes.extend([20, 0, 1, 0]);
    bytes.resize(PLACE, 0);
    bytes
}

fn entry(name: &[u8]) -> Vec<u8> {
    let mut bytes = vec![1, name.len() as u8];
    bytes.extend(name);
    bytes.resize(2 + NAME_MAX, 0);
    bytes.resize(ENTRY, 7);
    bytes
}

type Tried = Result<(), String>;

fn expect(name: &[u8], what: &str, got: u32, expected: u32) -> Tried {
    if got == expected {
        return Ok(());
    }
    Err(format!(
        "{what} of \"{}\": {got}, not {expected}",
        name.escape_ascii()
    ))
}

/// A name as an argument: of a set, whose data the next get returns, and of the
/// calls that find nothing.
fn argument(library: &dyn Library, name: &[u8], out: bool) -> Tried {
    let (card, chip) = (vec![0; PLACE], vec![0; ENTRY]);
    for call in reading(name) {
        let got = library.call(&card, &chip, &call).answer.number;
        expect(name, Call::KINDS[call.kind()], got, if out { 3 } else { 6 })?;
    }
    let set = Call::Set {
        key: KEY.to_vec(),
        name: name.to_vec(),
        flags: FLAGS,
        iv: IV.to_vec(),
        data: DATA.to_vec(),
    };
    let stored = library.call(&card, &chip, &set).answer;
    expect(name, "set", stored.number, if out { 3 } else { 0 })?;
    let finalized = in_chunks(library, &card, &chip, name)?;
    expect(name, "set_finalize", finalized.number, stored.number)?;
    if finalized != stored {
        return Err(format!(
            "\"{}\" is set otherwise in chunks",
            name.escape_ascii()
        ));
    }
    if out {
        return Ok(());
    }
    let got = library.call(&stored.card, &stored.chip, &get(name)).answer;
    expect(name, "get after set", got.number, 0)?;
    if got.output != DATA || stored.card[4..4 + name.len()] != *name {
        return Err(format!("\"{}\" is not kept whole", name.escape_ascii()));
    }
    Ok(())
}

/// The same set in chunks. Only its end judges a byte of the name.
fn in_chunks(
    library: &dyn Library,
    card: &[u8],
    chip: &[u8],
    name: &[u8],
) -> Result<Answer, String> {
    let start = Call::SetStart {
        name: name.to_vec(),
        flags: FLAGS,
        iv: IV.to_vec(),
        declared: DATA.len(),
        handle: [0xee; 88],
    };
    let started = library.call(card, chip, &start).answer;
    expect(name, "set_start", started.number, 0)?;
    let add = Call::SetAddData {
        handle: started.handle.try_into().expect("88 bytes"),
        staging: vec![0xee; STAGING],
        chunk: DATA.to_vec(),
    };
    let added = library.call(card, chip, &add).answer;
    expect(name, "set_add_data", added.number, 0)?;
    let finalize = Call::SetFinalize {
        key: KEY.to_vec(),
        handle: added.handle.try_into().expect("88 bytes"),
        staging: added.output,
    };
    Ok(library.call(card, chip, &finalize).answer)
}

/// A name in a used place, and in a used entry.
fn slot(library: &dyn Library, name: &[u8], out: bool) -> Tried {
    let other = get(b"other");
    let expected = if out { 2 } else { 6 };
    let got = library.call(&place(name), &[0; ENTRY], &other);
    expect(name, "a place", got.answer.number, expected)?;
    let got = library.call(&[0; PLACE], &entry(name), &other);
    expect(name, "an entry", got.answer.number, expected)
}

fn every_byte(library: &dyn Library, check: fn(&dyn Library, &[u8], bool) -> Tried) -> Checked {
    let mut tried = 0;
    for byte in 0..=u8::MAX {
        for name in names(byte) {
            check(library, &name, stays_out(byte))?;
            tried += 1;
        }
    }
    Ok(format!("{tried} names"))
}

pub fn checks(library: &dyn Library) -> Vec<(String, Checked)> {
    vec![
        ("name-bytes-given".into(), every_byte(library, argument)),
        ("name-bytes-stored".into(), every_byte(library, slot)),
    ]
}

#[cfg(test)]
mod tests {
    use super::*;
    use crate::library::Reference;

    #[test]
    fn the_reference_judges_every_byte() {
        for (name, checked) in checks(&Reference) {
            assert!(checked.is_ok(), "{name}: {checked:?}");
        }
    }
}
