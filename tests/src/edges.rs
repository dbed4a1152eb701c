//! The edges of the papers, from the files that the product's own program runs
//! too: one line is one call with its arguments and the answer that 01 gives.

use std::fs;
use std::path::{Path, PathBuf};

use crate::ciphers::Checked;
use crate::library::{Library, Reference};
use crate::words::Bench;

/// Where the files are unless the driver is told otherwise.
pub const FOLDER: &str = concat!(env!("CARGO_MANIFEST_DIR"), "/../crates/edges/data");

/// Lines told in full; the rest are only counted.
const TOLD: usize = 10;

/// A group's name, how many of its lines were tried, and how many of them were as
/// expected.
struct Group {
    name: String,
    tried: usize,
    good: usize,
}

/// Runs a file's lines: how many there were, or each that differs with file and number.
pub fn run(library: &dyn Library, file: &str, text: &[u8]) -> Checked {
    let mut bench = Bench::new(library);
    let mut groups: Vec<Group> = Vec::new();
    let mut told = Vec::new();
    for (at, line) in text.split(|byte| *byte == b'\n').enumerate() {
        let shown = String::from_utf8_lossy(line);
        if let Some(name) = shown.strip_prefix('#') {
            groups.push(Group {
                name: name.trim().into(),
                tried: 0,
                good: 0,
            });
        } else if !line.is_empty() {
            let outcome = match groups.last_mut() {
                Some(group) => group.count(bench.line(line)),
                None => Err("stands in no group".into()),
            };
            if let Err(why) = outcome {
                told.push(format!("\n  {file}:{}: {shown}\n    {why}", at + 1));
            }
        }
    }
    verdict(&groups, &told)
}

impl Group {
    /// Counts a line that was tried, and one that only prepares if it could not be
    /// carried out.
    fn count(&mut self, outcome: Result<bool, String>) -> Result<bool, String> {
        self.tried += usize::from(outcome != Ok(false));
        self.good += usize::from(outcome == Ok(true));
        outcome
    }
}

fn verdict(groups: &[Group], told: &[String]) -> Checked {
    let lines: usize = groups.iter().map(|group| group.tried).sum();
    if !told.is_empty() {
        let bad = groups.iter().filter(|group| group.good < group.tried);
        let bad = bad.map(|group| format!("\n  {}: {} of {}", group.name, group.good, group.tried));
        let told_first: String = told.iter().take(TOLD).cloned().chain(bad).collect();
        return Err(format!(
            "{} of {lines} lines differ{told_first}",
            told.len()
        ));
    }
    if groups.is_empty() {
        return Err("no line".into());
    }
    match groups.iter().find(|group| group.tried == 0) {
        Some(group) => Err(format!("no line in the group '{}'", group.name)),
        None => Ok(format!("{lines} lines in {} groups", groups.len())),
    }
}

/// The folder's files of edges, in the order of their names, never none.
fn files(folder: &Path) -> Result<Vec<PathBuf>, String> {
    let entries = fs::read_dir(folder).map_err(|why| format!("{}: {why}", folder.display()))?;
    let mut files: Vec<PathBuf> = entries
        .filter_map(|entry| Some(entry.ok()?.path()))
        .filter(|path| path.extension().map_or(false, |kind| kind == "tsv"))
        .collect();
    files.sort();
    if files.is_empty() {
        return Err(format!("{}: no file of edges", folder.display()));
    }
    Ok(files)
}

/// Each file once on the library and once on the reference.
pub fn checks(library: &dyn Library, folder: &Path) -> Vec<(String, Checked)> {
    let files = match files(folder) {
        Ok(files) => files,
        Err(why) => return vec![("edges".into(), Err(why))],
    };
    let stores: [(&str, &dyn Library); 2] = [("library", library), ("reference", &Reference)];
    let mut checks = Vec::new();
    for path in files {
        let name = path.file_name().unwrap_or_default().to_string_lossy();
        let text = fs::read(&path).map_err(|why| why.to_string());
        for (what, store) in stores {
            let checked = text.clone().and_then(|text| run(store, &name, &text));
            checks.push((format!("edges {name}: {what}"), checked));
        }
    }
    checks
}

#[cfg(test)]
mod tests {
    use super::*;
    use crate::calls::Call;
    use crate::library::{Faulty, Observed};

    #[test]
    fn the_reference_passes() {
        for (name, checked) in checks(&Reference, Path::new(FOLDER)) {
            assert!(checked.is_ok(), "{name}: {checked:?}");
        }
    }

    /// The line with each of the fields that it expects made another.
    fn altered(line: &str) -> Vec<String> {
        let (front, expected) = match line.split_once("\t=\t") {
            Some(parts) => parts,
            None => return Vec::new(),
        };
        let fields = expected.split('\t').filter(|field| !field.starts_with('#'));
        let fields: Vec<&str> = fields.collect();
        let alter = |at: usize| {
            let mut fields = fields.clone();
            fields[at] = "99";
            format!("{front}\t=\t{}", fields.join("\t"))
        };
        (0..fields.len()).map(alter).collect()
    }

    /// Each altered line is tried where it stands; for some the whole file is run again.
    #[test]
    fn every_expected_value_counts() {
        for path in files(Path::new(FOLDER)).expect("files") {
            let text = fs::read_to_string(path).expect("readable");
            let lines: Vec<&str> = text.lines().collect();
            let mut bench = Bench::new(&Reference);
            for (at, line) in lines.iter().enumerate() {
                if line.is_empty() || line.starts_with('#') {
                    continue;
                }
                for other in altered(line) {
                    assert!(bench.clone().line(other.as_bytes()).is_err(), "{other}");
                    if at % RUN_AGAIN == 0 {
                        told_alone(&lines, at, &other);
                    }
                }
                bench.line(line.as_bytes()).expect(line);
            }
        }
    }

    const RUN_AGAIN: usize = 40;

    /// In the whole file just this line is told.
    fn told_alone(lines: &[&str], at: usize, other: &str) {
        let mut lines = lines.to_vec();
        lines[at] = other;
        let why = told(&lines.join("\n")).expect_err(other);
        assert!(why.starts_with("1 of "), "{why}");
        assert!(why.contains(&format!("f.tsv:{}: {other}", at + 1)), "{why}");
    }

    fn told(text: &str) -> Checked {
        run(&Reference, "f.tsv", text.as_bytes())
    }

    #[test]
    fn what_differs_is_told_with_its_group() {
        let why = told(
            "# one\nslots\t1\t1\nset\t\"a\"\t0\t-\t=\t0\nremove\t\"b\"\t=\t7\n# two\nreset\t=\t0",
        )
        .unwrap_err();
        assert_eq!(
            why,
            "1 of 3 lines differ\n  f.tsv:4: remove\t\"b\"\t=\t7\n    answered\t6\n  one: 1 of 2"
        );
    }

    #[test]
    fn a_file_without_lines_fails() {
        assert!(told("").is_err());
        assert!(told("# a group\n").is_err());
        assert!(told("# a group\nslots\t1\t1\n").is_err());
        assert!(told("# a group\n# another\nreset\t=\t1").is_err());
        assert!(told("reset\t=\t1\n# a group\nreset\t=\t1").is_err());
        assert_eq!(
            told("# a group\nreset\t=\t1"),
            Ok("1 lines in 1 groups".into())
        );
        assert!(checks(&Reference, Path::new("/nowhere"))[0].1.is_err());
        let sources = concat!(env!("CARGO_MANIFEST_DIR"), "/src");
        assert!(checks(&Reference, Path::new(sources))[0].1.is_err());
    }

    /// Lines of each word with something wrong in them.
    const WRONG: [&str; 69] = [
        "slots\t66\t1",
        "slots\t1",
        "slots\t1\t1\t1",
        "card\t0",
        "card\t00*37961",
        "chip\t00*5331",
        "key\t00*65",
        "iv\t-\t=",
        "attributes\t00*19",
        "attributes\t00*21",
        "handle\t00*87",
        "handle\t00*89",
        "staging\t00*513",
        "staging",
        "poke\tcard\t584\t00",
        "poke\tcard\t18446744073709551615\t00",
        "poke\tcars\t0\t00",
        "poke\thandle\t88\t00",
        "poke\tstaging\t0\t00",
        "flip\tchip\t81\t0000",
        "keep\t4",
        "put\tcard\t0",
        "put\thandle\t0",
        "say",
        "sleep",
        "\t",
        "set\t\"a\"\t0\t=\t0",
        "set\t\"a\"\t4294967296\t-\t=\t0",
        "set\t\"a\"\t0\t-\t0",
        "set\t\"a\"\t0\t-",
        "reset\t=",
        "reset\t=\t0\t0",
        "get\t\"a\"\t18446744073709551616\t-\t=\t6\t0\t-",
        "start\t\"a\"\t0\t=\t0\t00*88",
        "start\t\"a\"\t4294967296\t0\t=\t0\t00*88",
        "start\t\"a\"\t0\t18446744073709551616\t=\t5\t00*88",
        "start\t\"a\"\t0\t481\t=\t5",
        "add\t=\t1\t00*88\t-",
        "add\t-\t=\t1\t00*88",
        "add\t-\t=\t1\t-\t00*88",
        "finalize\t=",
        "finalize\t-\t=\t1",
        "at\tcard\t583\t=\t0000",
        "at\tcard\t0\t=",
        "same\t0\t=",
        "fill\t95\t0\t-\t=\t95",
        "bits\tcard\t583\t2\tget\t\"a\"\t=\t2",
        "bits\tcard\t0\t0\tget\t\"a\"\t=\t2",
        "bits\tcard\t583\t1\tnext\t\"a\"\t=\t2",
        "bits\thandle\t0\t1\tget\t\"a\"\t=\t6",
        "each\tcard\t584\t1\t2\tget\t\"a\"\t=\t2",
        "each\tcard\t0\t2\t1\tget\t\"a\"\t=\t2",
        "each\tcard\t0\t0\t256\tget\t\"a\"\t=\t2",
        "store_mix\t\"mix/a\"\t0\t=\t20",
        "store_mix\t\"mix/a\"\t4294967296\t-\t=\t20",
        "store_mix\t\"mix/a\"\t0\t-\t=\t20\t0",
        "store_mix\t\"mix/a\"\t0\t-\t=",
        "find_mix\t18446744073709551616\t00*153\t=\t6\t0\t00*153",
        "find_mix\t0\t=\t6\t0",
        "find_mix\t0\t00*153\t=\t6\t0",
        "find_mix\t0\t00*153\t=\t6\t00*153",
        "find_mix\t0\t00*153\t=\t6\t0\t00*152",
        "encode_mix\t18446744073709551616\t-\t-\t-\t00*153\t=\t0\t9\t00*153",
        "encode_mix\t0\t01\t00*3\t00*4\t00*153\t=\t1\t0\t00*153",
        "encode_mix\t0\t01\t00*4\t00*5\t00*153\t=\t1\t0\t00*153",
        "encode_mix\t0\t-\t-\t-\t00*153\t=\t0\t9",
        "decode_mix\t00*9\t-\t=\t0\t0\t-\t-\t-",
        "decode_mix\t00*9\t=\t0\t0\t-\t-",
        "decode_mix\t00*9\t=\t0\t0\t0\t-\t-\t-",
    ];

    #[test]
    fn a_line_that_cannot_be_carried_out_differs() {
        for line in WRONG {
            let checked = told(&format!(
                "# a group\nslots\t1\t1\n{line}\nget\t\"a\"\t0\t-\t=\t6\t0\t-"
            ));
            let why = checked.expect_err(line);
            assert!(why.starts_with("1 of 2 lines differ\n  f.tsv:3: "), "{why}");
        }
    }

    #[test]
    fn a_refusal_that_writes_is_told() {
        let lines = [
            "# a group",
            "slots\t1\t1",
            "remove\t\"a\"\t=\t6",
            "get\t\"a\"\t0\tee\t=\t6\t0\tee",
            "fill\t1\t16\t-\t=\t0",
            "bits\tcard\t0\t1\tset\t20\t=\t2",
        ];
        let faults: [fn(&Call, &mut Observed); 3] = [
            |_, observed| observed.answer.card[583] ^= 1,
            |_, observed| observed.answer.chip[0] ^= 1,
            |_, observed| observed.strays.push("name was written".into()),
        ];
        for fault in faults {
            let why = run(&Faulty(fault), "f.tsv", lines.join("\n").as_bytes()).unwrap_err();
            assert!(why.starts_with("4 of 4 lines differ"), "{why}");
        }
    }

    /// Lines of each word for mixes, as they have to be.
    const MIXES: [&str; 10] = [
        "# a group",
        "slots\t1\t1",
        "encode_mix\t258\t0201\t00008040 00000080\t000080bf 0000c07f\tee*154\t=\t0\t27\t\
         0201 00*6 02 02 00008040 000080bf 01 00000080 00*4 ee*127",
        "encode_mix\t18446744073709551615\t01\t01008040\t00*4\tee*153\t=\t20\t0\tee*153",
        "store_mix\t\"mix/a\"\t14\t0201 00*6 01 01 00000080 00*4\t=\t0",
        "store_mix\t\"mix/b\"\t0\t00*9\t=\t10",
        "find_mix\t258\tee*154\t=\t0\t18\t0201 00*6 01 01 00000080 00*4 ee*136",
        "find_mix\t18446744073709551615\tee*153\t=\t6\t0\tee*153",
        "decode_mix\t0201 00*6 01 01 00000080 00*4\t=\t0\t258\t01\t00000080\t00*4",
        "decode_mix\t0201 00*6 00 00\t=\t20\t0\t-\t-\t-",
    ];

    #[test]
    fn lines_of_mixes_are_carried_out_and_told() {
        assert_eq!(told(&MIXES.join("\n")), Ok("8 lines in 1 groups".into()));
        for (at, line) in MIXES.iter().enumerate() {
            for other in altered(line) {
                let mut lines = MIXES;
                lines[at] = &other;
                let why = told(&lines.join("\n")).expect_err(&other);
                assert!(why.starts_with("1 of 8 lines differ"), "{why}");
            }
        }
        let faults: [fn(&mut Observed); 5] = [
            |observed| observed.answer.output[15] = 0,
            |observed| observed.answer.levels[15] = 0,
            |observed| observed.answer.pans[15] = 0,
            |observed| observed.answer.returned[1] = 17,
            |observed| observed.answer.card[0] ^= 1,
        ];
        for fault in faults {
            let faulty = Faulty(|call: &Call, observed: &mut Observed| {
                if let Call::DecodeMix { .. } = call {
                    fault(observed);
                }
            });
            let why = run(&faulty, "f.tsv", MIXES.join("\n").as_bytes()).unwrap_err();
            assert!(why.starts_with("2 of 8 lines differ"), "{why}");
        }
    }

    #[test]
    fn a_handle_or_staging_buffer_that_differs_is_told() {
        let lines = [
            "# a group",
            "staging\tee*480",
            "start\t\"a\"\t0\t481\t=\t5\t00*88",
            "add\t00\t=\t19\t00*88\tee*480",
        ];
        let faults: [fn(&Call, &mut Observed); 3] = [
            |call, observed| {
                if let Call::SetAddData { .. } = call {
                    observed.answer.handle[84] = 1;
                }
            },
            |call, observed| {
                if let Call::SetAddData { .. } = call {
                    observed.answer.output[479] = 0;
                }
            },
            |call, observed| {
                if let Call::SetStart { .. } = call {
                    observed.answer.handle.pop();
                }
            },
        ];
        for fault in faults {
            let why = run(&Faulty(fault), "f.tsv", lines.join("\n").as_bytes()).unwrap_err();
            assert!(why.starts_with("1 of 2 lines differ"), "{why}");
        }
        assert!(told(&lines.join("\n")).is_ok());
    }
}
