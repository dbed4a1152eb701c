//! The library's reading of key files, good ones and ones wrong in each way of 01.

use crate::ciphers::Checked;
use crate::keyfile::{Attributes, KeyFile, MATERIAL_MAX};
use crate::library::Library;
use crate::rng::Rng;
use crate::show;

const ROUNDS: usize = 8;

/// What is made wrong in a good file.
#[derive(Clone, Copy, Debug)]
enum Fault {
    /// A byte of the mark or of the version.
    Byte(usize),
    /// The length field says so many bytes more than there are.
    Field(i64),
    FieldIs(u32),
    /// So many bytes of material, truly told.
    Material(usize),
    /// Only so many bytes are left.
    Cut(usize),
    /// The last bytes are missing, at least one.
    Short,
    Trailing,
    Random,
    /// Random bytes behind a good mark and version.
    RandomMarked,
}

fn faults() -> Vec<Fault> {
    let bytes = (0..12).map(Fault::Byte);
    let cuts = (0..=40).map(Fault::Cut);
    let others = [
        Fault::Field(-1),
        Fault::Field(1),
        Fault::Field(256),
        Fault::FieldIs(0),
        Fault::FieldIs(445),
        Fault::FieldIs(1 << 31),
        Fault::FieldIs(u32::MAX),
        Fault::Material(445),
        Fault::Material(446),
        Fault::Material(1000),
        Fault::Short,
        Fault::Trailing,
        Fault::Random,
        Fault::RandomMarked,
    ];
    bytes.chain(cuts).chain(others).collect()
}

fn good(rng: &mut Rng, length: usize) -> Vec<u8> {
    let mut number = || rng.number() as u32;
    let attributes = Attributes {
        lifetime: number(),
        kind: number(),
        usage: number(),
        algorithm: number(),
        enrollment: number(),
    };
    let file = KeyFile::new(attributes, &rng.bytes(length));
    file.expect("short material").encode()
}

fn spoil(rng: &mut Rng, fault: Fault, mut file: Vec<u8>) -> Vec<u8> {
    let length = file.len() as i64 - 36;
    let field = |file: &mut Vec<u8>, number: i64| {
        file[32..36].copy_from_slice(&(number as u32).to_le_bytes());
    };
    match fault {
        Fault::Byte(at) => file[at] ^= 1 << rng.below(8),
        Fault::Field(more) => field(&mut file, length + more),
        Fault::FieldIs(number) => field(&mut file, number.into()),
        Fault::Material(length) => {
            field(&mut file, length as i64);
            file.resize(36 + length, 7);
        }
        Fault::Cut(at) => file.truncate(at),
        Fault::Short => file.truncate(file.len() - 1 - rng.below((file.len() - 36).max(1))),
        Fault::Trailing => {
            let more = 1 + rng.below(40);
            file.extend(rng.bytes(more));
        }
        Fault::Random => file = rng.bytes(file.len()),
        Fault::RandomMarked => {
            let rest = rng.bytes(file.len() - 12);
            file[12..].copy_from_slice(&rest);
        }
    }
    file
}

/// The number, and what is returned beside it.
pub fn expected(file: &[u8]) -> (u32, [u32; 6]) {
    match KeyFile::decode(file) {
        Some(read) => (0, read.numbers()),
        None => (13, [0; 6]),
    }
}

fn compare(library: &dyn Library, file: &[u8]) -> Result<u32, String> {
    let (expected, got) = (expected(file), library.parse_key_file(file)?);
    if expected == got {
        return Ok(got.0);
    }
    Err(format!(
        "expected {expected:x?}, got {got:x?}, file {}",
        show::buffer(file)
    ))
}

/// In each round a good file of every length, and one beside it made wrong.
pub fn random_key_files(library: &dyn Library, mut rng: Rng) -> Checked {
    let faults = faults();
    let mut refused = vec![0; faults.len()];
    let (mut files, mut accepted) = (0, 0);
    for length in (0..ROUNDS).flat_map(|_| 0..=MATERIAL_MAX) {
        let file = good(&mut rng, length);
        let pick = rng.below(faults.len());
        let wrong = spoil(&mut rng, faults[pick], file.clone());
        for (file, fault) in [(file, None), (wrong, Some(pick))] {
            files += 1;
            match (compare(library, &file)?, fault) {
                (0, _) => accepted += 1,
                (_, Some(fault)) => refused[fault] += 1,
                (number, None) => return Err(format!("{number} for a good file")),
            }
        }
    }
    if let Some(missed) = refused.iter().position(|count| *count == 0) {
        return Err(format!("{:?} never refused a file", faults[missed]));
    }
    if 3 * accepted < files {
        return Err(format!("only {accepted} of {files} files accepted"));
    }
    let kinds = faults.len();
    Ok(format!(
        "{files} files, {accepted} accepted, {kinds} faults"
    ))
}

#[cfg(test)]
mod tests {
    use super::*;
    use crate::library::Reference;

    #[test]
    fn the_reference_passes() {
        for seed in 0..20 {
            let checked = random_key_files(&Reference, Rng::new(seed));
            assert!(checked.is_ok(), "{checked:?}");
        }
    }
}
