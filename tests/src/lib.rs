//! A second implementation of the secure store, written from papers 01 and 02
//! and the standards alone, and the stories that try the product against it.

pub mod aes;
pub mod answer;
pub mod area;
pub mod book;
pub mod calls;
pub mod cards;
pub mod cast;
pub mod ciphers;
pub mod cmac;
pub mod ctr;
pub mod divisions;
pub mod downgrades;
pub mod edges;
pub mod floats;
pub mod generator;
pub mod handle;
pub mod handles;
#[cfg(test)]
mod impostors;
pub mod kdf;
pub mod keyfile;
pub mod library;
pub mod lists;
pub mod mix;
#[cfg(test)]
mod mix_impostors;
pub mod mixes;
pub mod mixing;
pub mod names;
pub mod night_edges;
pub mod nights;
pub mod orders;
pub mod parsing;
pub mod record;
pub mod replay;
#[cfg(test)]
mod replay_impostors;
pub mod rng;
pub mod score;
pub mod script;
pub mod show;
pub mod shrink;
pub mod sorted;
#[cfg(test)]
mod sorted_impostors;
pub mod stories;
pub mod tags;
pub mod tally;
pub mod tamper;
pub mod vectors;
pub mod words;
