//! The library's ciphers against the vectors and against the reference.

use crate::aes::{Aes128, Block, BLOCK};
use crate::library::{Library, Seen};
use crate::rng::Rng;
use crate::vectors::{at_line, block, rows, trials, Row, Trial};
use crate::{cmac, ctr, kdf, show};

/// How many inputs were tried, or what differed.
pub type Checked = Result<String, String>;

fn same(what: impl FnOnce() -> String, expected: &[u8], got: &[u8]) -> Result<(), String> {
    match show::first_difference("result", expected, got) {
        None => Ok(()),
        Some(difference) => Err(format!(
            "{}: {difference}\n  expected {}\n  got {}",
            what(),
            show::hex(expected),
            show::hex(got)
        )),
    }
}

/// Trials of the product's own run that the library exports no call for: it shows no
/// round keys, its counter mode starts at count 0, and it takes a message whole and a
/// name cut to 01's length.
const NOT_EXPORTED: [&str; 5] = [
    "words",
    "message",
    "lines as one message",
    "feeds at every division",
    "parts at every division",
];

/// Counter mode from any counter block, by the encryption of each. The count is its
/// second half, and starts again at 2^64.
fn counted(library: &dyn Library, key: &Block, first: Block, input: &[u8]) -> Seen<Vec<u8>> {
    let mut made = Vec::new();
    let (iv, start) = first.split_at(BLOCK / 2);
    let mut count = start.iter().fold(0, |n: u64, &b| n << 8 | u64::from(b));
    for text in input.chunks(BLOCK) {
        let mask = library.aes(key, &block(&[iv, &count.to_be_bytes()].concat())?)?;
        count = count.wrapping_add(1);
        made.extend(text.iter().zip(mask).map(|(a, b)| a ^ b));
    }
    Ok(made)
}

/// What a row expects, and what the library makes of the row, as long as it
/// states. K1 is added to a message of one block, so that the tag of K1 itself is the
/// encryption of the zero block; K2 is added to the empty message's padding.
fn expected_and_made(library: &dyn Library, trial: &Trial, row: &Row) -> Seen<(Vec<u8>, Vec<u8>)> {
    let key = block(&row.bytes(trial.key)?)?;
    let input = row.bytes(trial.input)?;
    let mut expected = row.bytes(trial.output)?;
    let mut made = Vec::new();
    match trial.what.as_str() {
        "blocks" => {
            for text in input.chunks(BLOCK) {
                made.extend(library.aes(&key, &block(text)?)?);
            }
        }
        "counter blocks" => made = counted(library, &key, block(&row.bytes(2)?)?, &input)?,
        "zero block" => made.extend(library.aes(&key, &[0; BLOCK])?),
        "tag" | "k1 as a message" => {
            made.extend(library.cmac(&key, &input)?);
            if row.fields() == 7 {
                made.truncate(row.number(4)?);
            }
        }
        "empty message by k2" => {
            let mut padded = block(&input)?;
            padded[0] ^= 0x80;
            expected = library.aes(&key, &padded)?.to_vec();
            made.extend(library.cmac(&key, &[])?);
        }
        "derived blocks" => {
            let size = row.number(1)? / 8;
            for i in (1..).take((size + BLOCK - 1) / BLOCK) {
                made.extend(library.cmac(&key, &[vec![i], input.clone()].concat())?);
            }
            made.truncate(size);
        }
        other => return Err(format!("no trial is called {other}")),
    }
    Ok((expected, made))
}

/// How many blocks a row gave, all as expected.
fn blocks(library: &dyn Library, trial: &Trial, row: &Row) -> Result<usize, String> {
    let (expected, made) = expected_and_made(library, trial, row)?;
    same(|| trial.what.clone(), &expected, &made)?;
    Ok(made.chunks(BLOCK).count())
}

fn published(library: &dyn Library, trial: &Trial, rows: &[Row]) -> Checked {
    let mut count = 0;
    for (index, row) in rows.iter().enumerate() {
        count += blocks(library, trial, row).map_err(|why| at_line(index, &why))?;
    }
    Ok(format!("{count} blocks"))
}

/// A check for each entry of the list that the library exports calls for.
fn listed(library: &dyn Library) -> Vec<(String, Checked)> {
    let list = match trials() {
        Ok(list) => list,
        Err(why) => return vec![("trials".into(), Err(why))],
    };
    list.iter()
        .filter(|trial| !NOT_EXPORTED.contains(&trial.what.as_str()))
        .map(|trial| {
            let name = trial.file.trim_end_matches(".tsv");
            let what = trial.what.replace(' ', "-");
            let checked = published(library, trial, &rows(&trial.file));
            (format!("{name}-{what}"), checked)
        })
        .collect()
}

pub fn random_aes(library: &dyn Library, mut rng: Rng) -> Checked {
    let count = 5000;
    for _ in 0..count {
        let (key, text): (Block, Block) = (rng.array(), rng.array());
        let got = library.aes(&key, &text)?;
        let what = || format!("key {} block {}", show::hex(&key), show::hex(&text));
        same(what, &Aes128::new(&key).encrypt(&text), &got)?;
    }
    Ok(format!("{count} blocks"))
}

/// Every length from 0 to 64 under three keys, and some long messages.
pub fn random_cmac(library: &dyn Library, mut rng: Rng) -> Checked {
    let long = [65, 127, 128, 129, 255, 480, 516, 564, 1000, 4096, 10_007];
    let lengths: Vec<usize> = (0..3).flat_map(|_| (0..=64).chain(long)).collect();
    for length in &lengths {
        let (key, message): (Block, _) = (rng.array(), rng.bytes(*length));
        let got = library.cmac(&key, &message)?;
        let what = || format!("key {} message {}", show::hex(&key), show::hex(&message));
        same(what, &cmac::cmac(&key, &message), &got)?;
    }
    Ok(format!("{} messages", lengths.len()))
}

pub fn random_ctr(library: &dyn Library, mut rng: Rng) -> Checked {
    // 4113 bytes need counts above 255, so the count's second byte is tried.
    let lengths: Vec<usize> = (0..=64).chain([100, 479, 480, 481, 600, 4113]).collect();
    for length in &lengths {
        let (key, iv, data): (Block, _, _) = (rng.array(), rng.array(), rng.bytes(*length));
        let got = library.ctr(&key, &iv, &data)?;
        let what = || {
            format!(
                "key {} IV {} length {length}",
                show::hex(&key),
                show::hex(&iv)
            )
        };
        same(what, &ctr::ctr(&key, &iv, &data), &got)?;
    }
    Ok(format!("{} messages", lengths.len()))
}

/// The prefixes of 01 with names of every length to 64 and some beyond; then
/// other prefixes, which the call takes too, about the length of a whole salt.
pub fn random_derive(library: &dyn Library, mut rng: Rng) -> Checked {
    let mut count = 0;
    let mut check = |prefix: &[u8], length: usize| {
        let (key, name): (Block, _) = (rng.array(), rng.bytes(length));
        let got = library.derive(&key, prefix, &name)?;
        let what = || {
            let (key, prefix, name) = (show::hex(&key), show::hex(prefix), show::hex(&name));
            format!("key {key} prefix {prefix} name {name}")
        };
        count += 1;
        same(what, &kdf::derive(&key, prefix, &name), &got)
    };
    for length in (0..=66).chain([100, 300]) {
        check(kdf::ENC, length)?;
        check(kdf::AUTH, length)?;
    }
    for prefix in [0, 1, 5, 30, 31, 32, 33, 40] {
        for length in [0, 1, 2, 20, 32, 40] {
            check(&vec![0xc3; prefix], length)?;
        }
    }
    Ok(format!("{count} names"))
}

/// All checks of the ciphers that need nothing but the library.
pub fn checks(library: &dyn Library, seed: u64) -> Vec<(String, Checked)> {
    let mut checks = listed(library);
    checks.push((
        "random-aes".into(),
        random_aes(library, Rng::part(seed, 1 << 40)),
    ));
    checks.push((
        "random-cmac".into(),
        random_cmac(library, Rng::part(seed, 2 << 40)),
    ));
    checks.push((
        "random-ctr".into(),
        random_ctr(library, Rng::part(seed, 3 << 40)),
    ));
    checks.push((
        "random-derive".into(),
        random_derive(library, Rng::part(seed, 4 << 40)),
    ));
    checks
}

#[cfg(test)]
mod tests {
    use super::*;
    use crate::library::Reference;

    #[test]
    fn the_reference_passes() {
        for (name, checked) in checks(&Reference, 1) {
            assert!(checked.is_ok(), "{name}: {checked:?}");
        }
    }

    // The vector is the first of RFC 3686.
    #[test]
    fn a_row_that_cannot_be_read_fails_by_its_line() {
        let trial = Trial {
            file: String::new(),
            what: "counter blocks".into(),
            key: 1,
            input: 3,
            output: 4,
        };
        let good = "0\tae6852f8121067cc4bf7a5765577f39e\t00000030000000000000000000000001\t\
            53696e676c6520626c6f636b206d7367\te4095d4fb7a7b3792d6175a3261311b8\tpublished";
        let tried = |line: &str| published(&Reference, &trial, &[Row::new(good), Row::new(line)]);
        assert_eq!(tried(good), Ok("2 blocks".into()));
        for (from, to, why) in [
            ("0001\t", "0001ff\t", "line 3: 17 bytes, not 16"),
            ("\tae", "\t", "line 3: 15 bytes, not 16"),
            ("\t53", "\tx3", "line 3: field 3 is not hex: x3"),
            ("11b8\tpublished", "11b9", "line 3: counter blocks: "),
        ] {
            let told = tried(&good.replace(from, to)).unwrap_err();
            assert!(told.starts_with(why), "{told}");
        }
    }
}
