//! Stories run through the library and the reference side by side.

use crate::answer::Answer;
use crate::area::{ENTRY, PLACE};
use crate::calls::{self, Call};
use crate::generator::{Step, Story};
use crate::library::{Library, Observed};
use crate::show;
use crate::shrink::{drop_parts, shorten_area};
use crate::tally::Tally;

/// A call whose answers differ, with the card and chip it was lent.
pub struct Mismatch {
    pub step: usize,
    card: Vec<u8>,
    chip: Vec<u8>,
    call: Call,
    expected: Answer,
    got: Observed,
}

pub fn difference(expected: &Answer, got: &Observed) -> Option<String> {
    let answer = &got.answer;
    if let Some(stray) = got.strays.first() {
        return Some(stray.clone());
    }
    if expected.number != answer.number {
        let (a, b) = (expected.number, answer.number);
        return Some(format!("number: expected {a}, got {b}"));
    }
    if expected.returned != answer.returned {
        let (a, b) = (expected.returned, answer.returned);
        return Some(format!("returned numbers: expected {a:?}, got {b:?}"));
    }
    show::first_difference("card", &expected.card, &answer.card)
        .or_else(|| show::first_difference("chip", &expected.chip, &answer.chip))
        .or_else(|| show::first_difference("output", &expected.output, &answer.output))
        .or_else(|| show::first_difference("handle", &expected.handle, &answer.handle))
        .or_else(|| different_floats("levels", &expected.levels, &answer.levels))
        .or_else(|| different_floats("pans", &expected.pans, &answer.pans))
}

fn different_floats(what: &str, expected: &[u32], got: &[u32]) -> Option<String> {
    let (expected, got) = (show::float_bytes(expected), show::float_bytes(got));
    show::first_difference(what, &expected, &got)
}

/// The number that the library answers, which has to be the reference's.
pub fn compare(
    library: &dyn Library,
    card: &[u8],
    chip: &[u8],
    call: &Call,
) -> Result<u32, String> {
    same_answer(library, card, chip, call).map(|answer| answer.number)
}

/// The library's whole answer, which has to be the reference's.
pub fn same_answer(
    library: &dyn Library,
    card: &[u8],
    chip: &[u8],
    call: &Call,
) -> Result<Answer, String> {
    let expected = calls::answer(card, chip, call).0;
    let got = library.call(card, chip, call);
    match difference(&expected, &got) {
        Some(different) => Err(format!("{different}\n  {}", show::call(call))),
        None => Ok(expected),
    }
}

/// The first call of the story whose answers differ.
pub fn check(story: &Story, library: &dyn Library, tally: &mut Tally) -> Option<Mismatch> {
    let (mut card, mut chip) = (story.card.clone(), story.chip.clone());
    for (step, what) in story.steps.iter().enumerate() {
        match what {
            Step::Tamper {
                card: new_card,
                chip: new_chip,
                ..
            } => (card, chip) = (new_card.clone(), new_chip.clone()),
            Step::Call(call) => {
                let (expected, why) = calls::answer(&card, &chip, call);
                let got = library.call(&card, &chip, call);
                tally.count(call.kind(), got.answer.number, why);
                tally.meet(&card, &chip, call);
                tally.search(&card, &chip, call);
                if difference(&expected, &got).is_some() {
                    return Some(Mismatch {
                        step,
                        card,
                        chip,
                        call: call.clone(),
                        expected,
                        got,
                    });
                }
                (card, chip) = (expected.card, expected.chip);
            }
        }
    }
    None
}

/// The shortest story found that still mismatches, told. A single call is tried
/// first: card and chip are all the state that a call has by 01.
pub fn report(story: &Story, found: &Mismatch, library: &dyn Library) -> String {
    let differs = |story: &Story| check(story, library, &mut Tally::default()).is_some();
    let single = Story {
        card: found.card.clone(),
        chip: found.chip.clone(),
        steps: vec![Step::Call(found.call.clone())],
    };
    let mut short = if differs(&single) {
        single
    } else {
        let with = |steps: &[Step]| Story {
            steps: steps.to_vec(),
            ..story.clone()
        };
        with(&drop_parts(story.steps.clone(), &|steps| {
            differs(&with(steps))
        }))
    };
    short.card = shorten_area(short.card.clone(), PLACE, &|card| {
        differs(&Story {
            card: card.to_vec(),
            ..short.clone()
        })
    });
    short.chip = shorten_area(short.chip.clone(), ENTRY, &|chip| {
        differs(&Story {
            chip: chip.to_vec(),
            ..short.clone()
        })
    });
    for step in 0..short.steps.len() {
        shorten_call(&mut short, step, &differs);
    }
    tell(&short, library)
}

/// Shortens the call's long arguments to the first length that will do.
fn shorten_call(story: &mut Story, step: usize, differs: &dyn Fn(&Story) -> bool) {
    let mut call = match story.steps[step].clone() {
        Step::Call(call) => call,
        _ => return,
    };
    for argument in 0..call.long_arguments().len() {
        for length in [0, 1, 16, 64] {
            let mut shorter = story.clone();
            if let Step::Call(call) = &mut shorter.steps[step] {
                call.long_arguments()[argument].truncate(length);
            }
            if differs(&shorter) {
                *story = shorter;
                break;
            }
        }
    }
}

fn tell(story: &Story, library: &dyn Library) -> String {
    let mut text = format!(
        "  start card {}\n  start chip {}\n",
        show::buffer(&story.card),
        show::buffer(&story.chip)
    );
    for step in &story.steps {
        text += &match step {
            Step::Call(call) => format!("  {}\n", show::call(call)),
            Step::Tamper { what, card, chip } => format!(
                "  {what}\n    card {}\n    chip {}\n",
                show::buffer(card),
                show::buffer(chip)
            ),
        };
    }
    let found = check(story, library, &mut Tally::default()).expect("it still mismatches");
    text += &format!(
        "  at step {}: {}\n    expected {}\n    got {}\n",
        found.step,
        difference(&found.expected, &found.got).expect("a difference"),
        show::answer(&found.expected),
        show::answer(&found.got.answer)
    );
    text
}

#[cfg(test)]
mod tests {
    use super::*;
    use crate::generator;
    use crate::library::{Faulty, Reference};
    use crate::rng::Rng;

    #[test]
    fn stories_reach_every_test_of_every_call() {
        let mut tally = Tally::default();
        for index in 0..6000 {
            let story = generator::story(Rng::part(1, index));
            assert!((10..=40).contains(&story.steps.len()));
            assert!(check(&story, &Reference, &mut tally).is_none());
        }
        let kinds: Vec<usize> = (0..Call::KINDS.len()).collect();
        assert_eq!(tally.gaps(&kinds), Vec::<String>::new());
        assert_eq!(tally.met_gaps(), Vec::<String>::new());
        assert_eq!(tally.searched_gaps(), Vec::<String>::new());
    }

    /// Writes one byte too many on a done get.
    fn leak(call: &Call, seen: &mut Observed) {
        let count = seen.answer.returned[0] as usize;
        if matches!(call, Call::Get { .. }) && count > 0 && count < seen.answer.output.len() {
            seen.answer.output[count] ^= 1;
        }
    }

    #[test]
    fn a_wrong_store_is_caught_and_its_story_shortened() {
        let leaky = Faulty(leak);
        let told = (0..200).find_map(|index| {
            let story = generator::story(Rng::part(2, index));
            let found = check(&story, &leaky, &mut Tally::default())?;
            Some(report(&story, &found, &leaky))
        });
        let told = told.expect("a mismatch");
        assert!(told.contains("output differs first at byte"), "{told}");
        assert_eq!(told.matches("\n  get name").count(), 1, "{told}");
        assert!(!told.contains("\n  set"), "{told}");
    }
}
