//! The score of a run: named checks, a line each, and cases on a few threads.

use std::process::ExitCode;
use std::thread;

use crate::ciphers::Checked;

pub const THREADS: u64 = 2;
/// Mismatches told in full; the rest are only counted.
const TOLD: usize = 3;

/// Counts of named checks.
#[derive(Default)]
pub struct Score {
    pub passed: usize,
    pub failed: usize,
}

impl Score {
    pub fn check_all(&mut self, checks: Vec<(String, Checked)>) {
        for (name, checked) in checks {
            self.check(&name, checked);
        }
    }

    pub fn check(&mut self, name: &str, checked: Checked) {
        match checked {
            Ok(note) => {
                self.passed += 1;
                println!("{}", format!("ok {name} {note}").trim_end());
            }
            Err(why) => {
                self.failed += 1;
                println!("FAILED {name} {why}");
            }
        }
    }
}

/// Runs `count` cases on a few threads: the tally, and what the cases that
/// failed have to tell, in their order.
pub fn in_parts<T: Default + Send>(
    count: u64,
    add: fn(&mut T, &T),
    case: &(dyn Fn(u64, &mut T) -> Option<String> + Sync),
) -> (T, Vec<String>) {
    let part = |first: u64| {
        let mut tally = T::default();
        let mut told = Vec::new();
        for index in (first..count).step_by(THREADS as usize) {
            if let Some(text) = case(index, &mut tally) {
                told.push((index, text));
            }
        }
        (tally, told)
    };
    let (mut tally, mut told) = (T::default(), Vec::new());
    thread::scope(|scope| {
        let parts: Vec<_> = (0..THREADS)
            .map(|first| scope.spawn(move || part(first)))
            .collect();
        for handle in parts {
            let (counts, texts) = handle.join().expect("no part panics");
            add(&mut tally, &counts);
            told.extend(texts);
        }
    });
    told.sort();
    (tally, told.into_iter().map(|(_, text)| text).collect())
}

pub fn verdict(mismatches: &[String], passed: String) -> Checked {
    if mismatches.is_empty() {
        return Ok(passed);
    }
    let told: String = mismatches.iter().take(TOLD).cloned().collect();
    Err(format!("{} mismatches\n{told}", mismatches.len()))
}

/// No number may be missing, or be one that can't be answered.
pub fn coverage(gaps: &[String]) -> Checked {
    if gaps.is_empty() {
        Ok(String::new())
    } else {
        Err(format!(
            "missing, or not to be answered: {}",
            gaps.join(", ")
        ))
    }
}

/// A whole run by its options, where `None` asks for help: the last line, and the exit
/// status.
pub fn exit_of<O>(
    options: Result<Option<O>, String>,
    usage: &str,
    run: impl Fn(&O) -> Score,
) -> ExitCode {
    let options = match options {
        Ok(Some(options)) => options,
        Ok(None) => {
            print!("{usage}");
            return ExitCode::SUCCESS;
        }
        Err(why) => {
            eprint!("{why}\n{usage}");
            return ExitCode::from(2);
        }
    };
    let score = run(&options);
    println!("{} passed, {} failed", score.passed, score.failed);
    if score.failed > 0 {
        ExitCode::FAILURE
    } else {
        ExitCode::SUCCESS
    }
}
