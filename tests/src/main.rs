//! Compares the product's static library with the reference.

mod driver;
mod ffi;
mod long;
mod openssl;

use std::process::ExitCode;

use driver::Options;
use reference::edges;
use reference::score::exit_of;

const USAGE: &str = include_str!("../usage.txt");

/// `None` asks for help.
fn options(mut arguments: impl Iterator<Item = String>) -> Result<Option<Options>, String> {
    let mut options = Options {
        seed: 1,
        stories: 40_000,
        lists: 20_000,
        divisions: 4_000,
        cards: 100_000,
        edges: edges::FOLDER.into(),
        all_floats: false,
    };
    while let Some(name) = arguments.next() {
        let mut value = || arguments.next().ok_or(format!("{name} wants a value"));
        let number = |text: String| text.parse().map_err(|_| format!("{name} wants a number"));
        match name.as_str() {
            "--help" => return Ok(None),
            "--seed" => options.seed = number(value()?)?,
            "--stories" => options.stories = number(value()?)?,
            "--lists" => options.lists = number(value()?)?,
            "--divisions" => options.divisions = number(value()?)?,
            "--cards" => options.cards = number(value()?)?,
            "--edges" => options.edges = value()?.into(),
            "--all-floats" => options.all_floats = true,
            _ => return Err(format!("{name} is unknown")),
        }
    }
    Ok(Some(options))
}

fn main() -> ExitCode {
    exit_of(options(std::env::args().skip(1)), USAGE, |options| {
        if options.all_floats {
            driver::all_floats()
        } else {
            driver::run(&ffi::Product, options)
        }
    })
}
