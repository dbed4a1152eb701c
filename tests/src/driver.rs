//! The run: named checks, a line each, and the tables.

use std::path::PathBuf;
use std::thread;

use reference::calls::Call;
use reference::cards::World;
use reference::ciphers;
use reference::floats::Accepted;
use reference::library::Library;
use reference::rng::Rng;
use reference::score::{coverage, in_parts, verdict, Score, THREADS};
use reference::stories;
use reference::tally::Tally;
use reference::{
    cards, divisions, downgrades, edges, floats, generator, handles, lists, mixes, names, orders,
    parsing, sorted, tags,
};

use crate::{long, openssl};

pub struct Options {
    pub seed: u64,
    pub stories: u64,
    pub lists: u64,
    pub divisions: u64,
    pub cards: u64,
    /// Where the files of edges are.
    pub edges: PathBuf,
    /// Only the rules of levels and pans, on all patterns.
    pub all_floats: bool,
}

pub fn run(library: &dyn Library, options: &Options) -> Score {
    let mut score = Score::default();
    println!(
        "seed {} stories {} lists {} divisions {} cards {}",
        options.seed, options.stories, options.lists, options.divisions, options.cards
    );
    score.check_all(ciphers::checks(library, options.seed));
    if openssl::installed() {
        score.check_all(openssl::checks(library, options.seed));
    } else {
        println!("skipped openssl: the command is not installed");
    }
    let rng = Rng::part(options.seed, 6 << 40);
    score.check("random-key-files", parsing::random_key_files(library, rng));
    score.check_all(edges::checks(library, &options.edges));
    score.check_all(names::checks(library));
    score.check_all(orders::checks(library));
    score.check_all(handles::checks(library));
    score.check_all(tags::checks(library, options.seed));
    score.check_all(downgrades::checks(library, options.seed));
    score.check_all(mixes::checks(library));
    score.check_all(sorted::checks(library));
    score.check_all(floats::checks(library, options.seed));
    match long::check() {
        Some(checked) => score.check("lengths-past-32-bits", checked),
        None => println!("skipped lengths-past-32-bits: no room for them"),
    }
    run_cards(library, options, &mut score);
    run_divisions(library, options, &mut score);
    run_stories(library, options, &mut score);
    run_lists(library, options, &mut score);
    score
}

/// The two rules of levels and pans on all patterns, some on each thread.
pub fn all_floats() -> Score {
    let part = |first: u64| {
        floats::agree(
            (first..1 << 32)
                .step_by(THREADS as usize)
                .map(|bits| bits as u32),
        )
    };
    let parts: Vec<_> = thread::scope(|scope| {
        let parts: Vec<_> = (0..THREADS)
            .map(|first| scope.spawn(move || part(first)))
            .collect();
        let joined = parts
            .into_iter()
            .map(|part| part.join().expect("no part panics"));
        joined.collect()
    });
    let all = parts
        .into_iter()
        .try_fold(Accepted::default(), |all, part| Ok(all.and(part?)));
    let mut score = Score::default();
    score.check("all-floats", all.and_then(Accepted::whole));
    score
}

fn run_cards(library: &dyn Library, options: &Options, score: &mut Score) {
    let seed = options.seed;
    let world = match World::new(library, Rng::part(seed ^ 10 << 40, 0)) {
        Ok(world) => world,
        Err(why) => return score.check("old-cards", Err(why)),
    };
    let (tally, mismatches) = in_parts(options.cards, Tally::add, &|index, tally| {
        let rng = Rng::part(seed ^ 11 << 40, index);
        let told = world.check(rng, library, tally)?;
        Some(format!("  card {index} of seed {seed}:\n    {told}\n"))
    });
    let summary = cards::summary(&tally, world.names());
    let passed = format!("{} cards, {summary}", options.cards);
    score.check("old-cards", verdict(&mismatches, passed));
    println!("answers on the cards:\n{}", tally.table(&cards::KINDS));
    score.check("old-cards-coverage", coverage(&cards::gaps(&tally)));
}

fn run_divisions(library: &dyn Library, options: &Options, score: &mut Score) {
    let seed = options.seed;
    let (tally, mismatches) = in_parts(options.divisions, Tally::add, &|index, tally| {
        let rng = Rng::part(seed ^ 7 << 40, index);
        let told = divisions::check(rng, library, tally)?;
        Some(format!("  division {index} of seed {seed}:\n    {told}\n"))
    });
    let calls = tally.calls();
    let passed = format!("{} divisions, {calls} calls", options.divisions);
    score.check("however-divided", verdict(&mismatches, passed));
    let kinds = [0, 3, 9, 10, Call::SET_FINALIZE];
    println!("answers in the divisions:\n{}", tally.table(&kinds));
    score.check(
        "however-divided-coverage",
        coverage(&divisions::gaps(&tally)),
    );
}

fn run_stories(library: &dyn Library, options: &Options, score: &mut Score) {
    let seed = options.seed;
    let (tally, mismatches) = in_parts(options.stories, Tally::add, &|index, tally| {
        let story = generator::story(Rng::part(seed, index));
        let found = stories::check(&story, library, tally)?;
        let told = stories::report(&story, &found, library);
        Some(format!(
            "  story {index} of seed {seed}, shortened:\n{told}"
        ))
    });
    let calls = tally.calls();
    let passed = format!("{} stories, {calls} calls", options.stories);
    score.check("stories", verdict(&mismatches, passed));

    let kinds: Vec<usize> = (0..Call::KINDS.len()).collect();
    println!("answers in the stories:\n{}", tally.table(&kinds));
    let gaps = tally.gaps(&kinds);
    let checked = if gaps.is_empty() {
        Ok(format!("rarest: {}", tally.rarest()))
    } else {
        Err(gaps.join("; "))
    };
    score.check("stories-coverage", checked);
    println!(
        "calls under names that the chip holds, by the flags on the card:\n{}",
        tally.met_table()
    );
    score.check("stories-downgrades", coverage(&tally.met_gaps()));
    println!("searches for a mix in the stories:\n{}", tally.searched());
    score.check("stories-searches", coverage(&tally.searched_gaps()));
}

fn run_lists(library: &dyn Library, options: &Options, score: &mut Score) {
    let seed = options.seed;
    let (tally, mismatches) = in_parts(options.lists, Tally::add, &|index, tally| {
        let merge = lists::merge(Rng::part(!seed, index));
        lists::check(&merge, library, tally)?;
        let told = lists::report(&merge, library);
        Some(format!(
            "  lists {index} of seed {seed}, shortened:\n{told}"
        ))
    });
    let calls = tally.calls();
    let passed = format!("{} pairs of merges, {calls} calls", options.lists);
    score.check("demand-3", verdict(&mismatches, passed));

    println!("answers in the lists:\n{}", tally.table(&lists::KINDS));
    score.check("demand-3-coverage", coverage(&lists::gaps(&tally)));
}
