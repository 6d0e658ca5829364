//! A second opinion on the rules (docs/RULES.md), written from them alone. What the proved programs
//! print is compared with what this program prints for the same inputs.

mod answer;
mod arrivals;
mod bytes;
mod card_numbers;
mod cards;
mod chance;
mod conic;
mod copy_inputs;
mod damage;
mod deck;
mod deck_inputs;
mod earlier;
mod edges;
mod ends;
mod far_end_inputs;
mod far_ends;
mod file_suite;
mod form_inputs;
mod form_kinds;
mod kepler;
mod kepler_edges;
mod kepler_inputs;
mod kinds;
mod legs;
mod long_hand;
mod motion;
mod problem_inputs;
mod reading;
mod refused_cards;
mod root;
mod root_inputs;
mod search;
mod series_inputs;
mod solved_cards;
mod spoilt;
mod suite;
mod tagged_decks;
mod tags;
mod theta;
mod theta_inputs;
mod ties;
mod times;
mod traits;
mod transfer;
mod transfer_cards;
mod transfer_decks;
mod transfer_edges;
mod transfer_inputs;
mod unit_cards;
mod units;
mod universal;
mod version_kinds;
mod versions;
mod writer;

use bytes::{words_from_bytes, words_to_bytes};
use conic::Words;
use file_suite::FileSuite;
use std::io::{self, BufWriter, Write};
use std::process::ExitCode;
use suite::Suite;

const USAGE: &str = "\
usage: independent NAME inputs                    the gate's inputs, in little-endian bytes
       independent NAME answers                   reads inputs, writes the lines of each
       independent NAME traits                    reads inputs, writes a line for each trait of each
       independent NAME random SEED COUNT [FROM]  COUNT inputs made from SEED, from place FROM on
NAME is a proved program's: roots, root_digits, series, predict, turn or transfer. Each input of check_deck
and copy_deck is a file, PLACE.deck, and so is each of write_deck, PLACE.problems; NAME is one of these three:
       independent NAME inputs INTO               the gate's inputs, into the folder INTO
       independent NAME answers INPUTS INTO       for each input of a folder a file PLACE.answer
       independent NAME random SEED COUNT [FROM] INTO
       independent NAME kinds INPUTS ANSWERS      a line for each kind of each answer
Whether transfers arrive; RECORDS, LINES and OUTCOMES are files:
       independent transfer arcs                  transfers, as records
       independent transfer departures RECORDS LINES
                                                  Kepler's problems for those that LINES calls solved
       independent transfer arrivals RECORDS LINES OUTCOMES
                                                  how near Kepler's OUTCOMES come";

const ROOTS: Suite<u64, 8> = Suite {
    fixed: root_inputs::fixed,
    mixed: root_inputs::mixed,
    bytes: |word| word.to_le_bytes(),
    lines: |bytes| root::root(u64::from_le_bytes(bytes)).to_string(),
    traits: |_| Vec::new(),
};

const ROOT_DIGITS: Suite<u64, 8> = Suite {
    fixed: root_inputs::fixed_digits,
    lines: |bytes| long_hand::lines(u64::from_le_bytes(bytes)),
    ..ROOTS
};

const SERIES: Suite<u64, 8> = Suite {
    fixed: series_inputs::fixed,
    mixed: series_inputs::mixed,
    lines: |bytes| universal::line(f64::from_le_bytes(bytes)),
    traits: |bytes| traits::of_z(f64::from_le_bytes(bytes)),
    ..ROOTS
};

const PREDICT: Suite<kepler::Input, { kepler::PROBLEM }> = Suite {
    fixed: kepler_inputs::fixed,
    mixed: kepler_inputs::mixed,
    bytes: kepler::Input::bytes,
    lines: |bytes| kepler::answer(&kepler::Input::read(&bytes)).to_string(),
    traits: |bytes| {
        let about_far_end = far_ends::traits(&kepler::Input::read(&bytes));
        [traits::of_prediction(&bytes), about_far_end].concat()
    },
};

const TURN: Suite<Words, 64> = Suite {
    fixed: theta_inputs::fixed,
    mixed: theta_inputs::mixed,
    bytes: words_to_bytes,
    lines: |bytes| theta::answer(&words_from_bytes(&bytes)).to_string(),
    traits: |bytes| traits::of_prediction(&bytes),
};

const TRANSFER: Suite<transfer::Input, { transfer::RECORD }> = Suite {
    fixed: transfer_inputs::fixed,
    mixed: transfer_inputs::mixed,
    bytes: transfer::Input::bytes,
    lines: |bytes| transfer::answer(&transfer::Input::read(&bytes)).to_string(),
    traits: |bytes| traits::of_transfer(&transfer::Input::read(&bytes)),
};

const CHECK_DECK: FileSuite = FileSuite {
    ending: "deck",
    fixed: deck_inputs::fixed,
    mixed: deck_inputs::mixed,
    answer: |input| deck::listing(input).into_bytes(),
    kinds: kinds::listed,
};

const WRITE_DECK: FileSuite = FileSuite {
    ending: "problems",
    fixed: problem_inputs::fixed,
    mixed: problem_inputs::mixed,
    answer: writer::written,
    kinds: |_, input, answer| form_kinds::written(input, answer),
};

const COPY_DECK: FileSuite = FileSuite {
    ending: "deck",
    fixed: copy_inputs::fixed,
    mixed: deck_inputs::mixed,
    answer: writer::copied,
    kinds: |_, deck, answer| kinds::copied(deck, answer),
};

fn main() -> ExitCode {
    let given: Vec<String> = std::env::args_os()
        .skip(1)
        .map(|word| word.to_string_lossy().into_owned())
        .collect();
    let given: Vec<&str> = given.iter().map(String::as_str).collect();
    let mut out = BufWriter::new(io::stdout().lock());
    let done = match given[..] {
        ["roots", ref command @ ..] => ROOTS.run(&mut out, command),
        ["root_digits", ref command @ ..] => ROOT_DIGITS.run(&mut out, command),
        ["series", ref command @ ..] => SERIES.run(&mut out, command),
        ["predict", ref command @ ..] => PREDICT.run(&mut out, command),
        ["turn", ref command @ ..] => TURN.run(&mut out, command),
        ["transfer", ref command @ ..] => TRANSFER
            .run(&mut out, command)
            .or_else(|| arrivals::run(&mut out, command)),
        ["check_deck", ref command @ ..] => CHECK_DECK.run(&mut out, command),
        ["write_deck", ref command @ ..] => WRITE_DECK.run(&mut out, command),
        ["copy_deck", ref command @ ..] => COPY_DECK.run(&mut out, command),
        _ => None,
    };
    let Some(done) = done else {
        eprintln!("{USAGE}");
        return ExitCode::from(2);
    };
    match done.and_then(|()| out.flush()) {
        Ok(()) => ExitCode::SUCCESS,
        Err(error) => {
            eprintln!("{error}");
            ExitCode::FAILURE
        }
    }
}
