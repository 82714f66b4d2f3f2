//! Agreement on the program yard: what both print for the same files and inputs.

use crate::agree::Tried;
use crate::proved::{self, End, TextTold};
use crate::random::Random;
use crate::{files, inputs};
use plain::{Kind, Tally};
use std::collections::BTreeMap;

/// What was compared of the program yard.
#[derive(Default)]
pub struct Printed {
    pub tried: Tried,
    /// How often the row was too short for what is printed.
    pub too_short: usize,
    /// How often each letter told a step, and each number a refusal, and how many registers were collected (`=`) or not (`-`).
    pub words: BTreeMap<String, usize>,
}

/// The file of a seed, which is mostly read, and an input for it.
fn file_and_input(random: &mut Random) -> (Vec<u8>, Vec<u8>) {
    let mut parts = files::parts(random);
    if parts.codes > Tally::CODES && !random.once_in(4) {
        parts.keep_codes(Tally::CODES);
    }
    let input = inputs::input(random, parts.types.len());
    let file = match random.below(8) {
        0 => files::damaged(random, parts.bytes()),
        1 if random.once_in(8) => Vec::new(),
        1 => {
            files::turn_arcs(random, &mut parts);
            parts.bytes()
        }
        _ => parts.bytes(),
    };
    (file, input)
}

/// The letter by which a word of the first line tells a step, or `N` and the number of a refusal.
fn turn(word: &str) -> &str {
    let rest = word.trim_start_matches(|c: char| c.is_ascii_digit());
    if rest.starts_with('N') {
        return rest;
    }
    rest.get(..1).unwrap_or("")
}

/// What a word of the second line tells of a collect: a register, or none.
fn end(word: &str) -> &str {
    if word == "-" {
        word
    } else {
        "="
    }
}

/// Puts the text at the front of the row if it fits, and tells its length either way.
fn put(text: &[u8], row: &mut [u8]) -> TextTold {
    let end = match row.get_mut(..text.len()) {
        Some(front) => {
            front.copy_from_slice(text);
            End::DONE
        }
        None => End::NO_ROOM,
    };
    TextTold {
        end,
        length: text.len(),
    }
}

impl Printed {
    /// Counts the words of a text.
    fn count(&mut self, text: &[u8]) {
        let text = String::from_utf8_lossy(text);
        let lines: Vec<&str> = text.split_terminator('\n').collect();
        let [turns, ends, _shown] = lines[..] else {
            return;
        };
        self.tried.accepted += 1;
        let turns = turns.split_whitespace().map(turn);
        for word in turns.chain(ends.split_whitespace().map(end)) {
            *self.words.entry(word.to_string()).or_default() += 1;
        }
    }

    /// Prints with both, into a row that may be too short, and compares the whole row.
    fn compare(&mut self, random: &mut Random, seed: u64, file: &[u8], input: &[u8]) {
        let text = plain::yard(file, input);
        let length = match random.below(8) {
            0 => random.below(text.len()),
            1 => text.len() - 1,
            2 => text.len(),
            _ => text.len() + random.below(60),
        };
        let mut row: Vec<u8> = (0..length).map(|_| random.byte()).collect();
        let mut wanted = row.clone();
        let wanted_told = put(&text, &mut wanted);
        let told = proved::yard(file, input, &mut row);
        if told != wanted_told {
            self.tried
                .differ("the end of yard", seed, told, wanted_told);
        }
        if row != wanted {
            let words = |bytes: &[u8]| String::from_utf8_lossy(bytes).into_owned();
            let (row, wanted) = (words(&row), words(&wanted));
            self.tried.differ("what yard prints", seed, row, wanted);
        }
        self.tried.cases += 1;
        self.too_short += usize::from(told.end == End::NO_ROOM);
        self.count(&text);
    }
}

/// Prints for so many files and inputs with both.
pub fn yards_agree(count: u64) -> Printed {
    let mut printed = Printed::default();
    for seed in (1 << 41)..(1 << 41) + count {
        let mut random = Random::new(seed);
        let (file, input) = file_and_input(&mut random);
        printed.compare(&mut random, seed, &file, &input);
    }
    printed
}
