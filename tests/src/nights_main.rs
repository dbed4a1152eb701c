//! Compares the product's player of nights with the reference.

mod player;

use std::env;
use std::fs::{File, OpenOptions};
use std::io::Read;
use std::path::{Path, PathBuf};
use std::process::ExitCode;
use std::sync::atomic::{AtomicUsize, Ordering};
use std::thread;

use reference::ciphers::Checked;
use reference::nights::{self, Plays, Printed, Tally};
use reference::rng::Rng;
use reference::score::{coverage, exit_of, in_parts, verdict, Score};
use reference::{night_edges, replay};

use player::{Ended, Player};

const USAGE: &str = include_str!("../nights.txt");
const PROGRAM: &str = "replay";
/// One night in so many comes through a pipe in pieces, and one is answered through one.
const IN_PIECES: u64 = 40;
const BY_PIPES: u64 = 333;
/// Differing nights that are shortened: with a wrong player most may differ.
const SHORTENED: usize = 10;

struct Options {
    seed: u64,
    nights: u64,
}

/// `None` asks for help.
fn options(mut arguments: impl Iterator<Item = String>) -> Result<Option<Options>, String> {
    let mut options = Options {
        seed: 1,
        nights: 100_000,
    };
    while let Some(name) = arguments.next() {
        let mut value = || arguments.next().ok_or(format!("{name} wants a value"));
        let number = |text: String| text.parse().map_err(|_| format!("{name} wants a number"));
        match name.as_str() {
            "--help" => return Ok(None),
            "--seed" => options.seed = number(value()?)?,
            "--nights" => options.nights = number(value()?)?,
            _ => return Err(format!("{name} is unknown")),
        }
    }
    Ok(Some(options))
}

/// The folder of the program, as build.rs finds that of the library.
fn program() -> PathBuf {
    let folder = env::var("SECURESTORE_BIN_DIR").unwrap_or_else(|_| "../target/bin".into());
    let root = Path::new(env!("CARGO_MANIFEST_DIR"));
    root.join(folder).join(PROGRAM)
}

fn main() -> ExitCode {
    exit_of(options(env::args().skip(1)), USAGE, run)
}

fn run(options: &Options) -> Score {
    let (seed, player) = (options.seed, &Player::new(program()));
    let mut score = Score::default();
    println!("seed {seed} nights {}", options.nights);
    score.check("edges", edges(&|night| player.in_memory(night)));
    let each_byte = |night: &[u8]| {
        // The longest in a few thousand pieces.
        let least = night.len() / 4_000 + 1;
        let cuts: Vec<usize> = (1..night.len()).step_by(least).collect();
        player.in_pieces(night, &cuts)
    };
    score.check("edges-byte-by-byte", edges(&each_byte));
    score.check(
        "edges-by-pipes",
        edges(&|night| player.by_pipes(night, false)),
    );
    score.check("ends-of-reads", ends(player, nights::at_read_end, 1_104));
    score.check("ends-of-writes", ends(player, nights::at_write_end, 970));
    score.check("big-nights", big_nights(player, seed));
    score.check("endless-lines", endless_lines(player, seed));
    score.check("no-output", no_output(player));
    score.check("no-input", no_input(player));
    run_nights(options, player, &mut score);
    score
}

/// The nights whose answers are written by hand.
fn edges(plays: Plays) -> Checked {
    let table = night_edges::table();
    let differs = |(name, night, printed): &night_edges::Edge| {
        let different = nights::difference(night, printed, plays)?;
        Some(format!("  {name}: {different}\n"))
    };
    let mismatches: Vec<String> = table.iter().filter_map(differs).collect();
    verdict(&mismatches, format!("{} nights", table.len()))
}

/// Nights in which a read or write of a usual size would end at each byte of something.
fn ends(player: &Player, night: fn(usize, usize) -> Vec<u8>, most: u64) -> Checked {
    const SIZES: [usize; 2] = [4_096, 65_536];
    let count = most * SIZES.len() as u64;
    let ((), mismatches) = in_parts(count, |(), ()| (), &|index, ()| {
        let (size, back) = (SIZES[(index / most) as usize], (index % most) as usize);
        let night = night(size, back);
        let expected = replay::replay(&night);
        let plays = |night: &[u8]| player.in_memory(night);
        let different = nights::difference(&night, &expected, &plays)?;
        Some(format!("  {back} bytes before {size}: {different}\n"))
    });
    verdict(&mismatches, format!("{count} nights"))
}

/// More than a read can bring at once.
fn big_nights(player: &Player, seed: u64) -> Checked {
    let mut mismatches = Vec::new();
    let mut bytes = 0;
    for index in 0..2 {
        let night = nights::big_night(Rng::part(seed ^ 13 << 40, index), 1_200_000);
        bytes += night.len();
        let expected = replay::replay(&night);
        let mut rng = Rng::part(seed ^ 14 << 40, index);
        let cuts = nights::cuts(&night, &mut rng);
        let in_memory = |night: &[u8]| player.in_memory(night);
        let in_pieces = |night: &[u8]| player.in_pieces(night, &cuts);
        let ways: [(&str, Plays); 2] = [("in memory", &in_memory), ("piped", &in_pieces)];
        for (way, plays) in ways {
            if let Some(different) = nights::difference(&night, &expected, plays) {
                mismatches.push(format!("  big night {index} {way}: {different}\n"));
            }
        }
    }
    verdict(&mismatches, format!("{bytes} bytes"))
}

fn endless_lines(player: &Player, seed: u64) -> Checked {
    const NIGHTS: u64 = 12;
    let mut mismatches = Vec::new();
    for index in 0..NIGHTS {
        let night = nights::endless_night(Rng::part(seed ^ 15 << 40, index));
        let expected = replay::replay(&night);
        let plays = |night: &[u8]| player.in_memory(night);
        if let Some(different) = nights::difference(&night, &expected, &plays) {
            mismatches.push(format!("  endless night {index}: {different}\n"));
        }
    }
    verdict(&mismatches, format!("{NIGHTS} nights"))
}

fn due(what: &str, got: Result<Ended, String>, due: Ended) -> Result<(), String> {
    let got = got.map_err(|why| format!("{what}: {why}"))?;
    if got == due {
        Ok(())
    } else {
        Err(format!("{what}: {got} instead of {due}"))
    }
}

fn open(path: &str, write: bool) -> Result<File, String> {
    let opened = OpenOptions::new().read(!write).write(write).open(path);
    opened.map_err(|why| format!("{path}: {why}"))
}

const SHORT_NIGHT: &[u8] = b"00112233445566778899aabbccddeeff\t1\nget\ta\n";

/// Status 1, where there is something to write and it can't be. Where nobody reads what is
/// written, the signal ends the program before, unless that is ignored.
fn no_output(player: &Player) -> Checked {
    let mut cases = 0;
    for night in [SHORT_NIGHT, b"", b"bad"] {
        let input = || player::holding(night);
        let shown = night.escape_ascii();
        let full = player.ends(input(), open("/dev/full", true)?);
        due(&format!("/dev/full, \"{shown}\""), full, Ended::With(1))?;
        let read_only = player.ends(input(), open("/dev/null", false)?);
        due(
            &format!("read only, \"{shown}\""),
            read_only,
            Ended::With(1),
        )?;
        let none = player.ends_without_output(input());
        due(&format!("no descriptor, \"{shown}\""), none, Ended::With(1))?;
        let what = format!("nobody reads, \"{shown}\"");
        let (end, output) = player::pipe();
        drop(end);
        let failed = player.ends_unsignalled(input(), output.try_clone().map_err(told)?);
        due(&what, failed, Ended::With(1))?;
        due(&what, player.ends(input(), output), Ended::ByPipe)?;
        cases += 5;
    }
    // More than a pipe holds, and the reader goes after a few bytes.
    let night = [SHORT_NIGHT, &b"\n".repeat(1 << 16)].concat();
    for ignored in [true, false] {
        let (mut end, output) = player::pipe();
        let got = thread::scope(|scope| {
            scope.spawn(move || end.read_exact(&mut [0; 10]));
            let input = player::holding(&night);
            if ignored {
                player.ends_unsignalled(input, output)
            } else {
                player.ends(input, output)
            }
        });
        let wanted = if ignored {
            Ended::With(1)
        } else {
            Ended::ByPipe
        };
        due("the reader goes", got, wanted)?;
        cases += 1;
    }
    Ok(format!("{cases} cases"))
}

fn told(why: std::io::Error) -> String {
    why.to_string()
}

/// Status 2, where not even the first byte can be read.
fn no_input(player: &Player) -> Checked {
    let out = player::memory;
    let write_only = player.ends(open("/dev/null", true)?, out());
    due("write only", write_only, Ended::With(2))?;
    due(
        "a folder",
        player.ends(open("/", false)?, out()),
        Ended::With(2),
    )?;
    due(
        "no descriptor",
        player.ends_without_input(out()),
        Ended::With(2),
    )?;
    // Nothing to read is no failure.
    let nothing = player.ends(open("/dev/null", false)?, out());
    due("/dev/null", nothing, Ended::With(0))?;
    Ok("4 cases".into())
}

/// How a night of that number is played.
fn played(player: &Player, seed: u64, index: u64, night: &[u8]) -> Printed {
    if index % BY_PIPES == 5 {
        player.by_pipes(night, index % 2 == 0)
    } else if index % IN_PIECES == 7 {
        let mut rng = Rng::part(seed ^ 16 << 40, index);
        player.in_pieces(night, &nights::cuts(night, &mut rng))
    } else {
        player.in_memory(night)
    }
}

fn run_nights(options: &Options, player: &Player, score: &mut Score) {
    let seed = options.seed;
    let shortened = AtomicUsize::new(0);
    let (tally, mismatches) = in_parts(options.nights, Tally::add, &|index, tally| {
        let night = nights::night(seed, index);
        let plays = |night: &[u8]| played(player, seed, index, night);
        let different = nights::check(&night, &plays, tally)?;
        if shortened.fetch_add(1, Ordering::Relaxed) >= SHORTENED {
            return Some(format!("  night {index} of seed {seed}: {different}\n"));
        }
        let told = nights::report(&night, &plays);
        Some(format!(
            "  night {index} of seed {seed}, shortened:\n{told}"
        ))
    });
    let passed = format!("{} nights, {} lines", options.nights, tally.lines);
    score.check("nights", verdict(&mismatches, passed));
    println!("what became of the lines:\n{}", tally.table());
    score.check("nights-coverage", coverage(&tally.gaps()));
}
