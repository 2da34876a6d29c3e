//! A load of publishers and members over the loopback, for any MQTT 5.0 broker: `load 1883 4 4 100000`.
//!
//! It stands on std and on Linux' epoll: `rustc -O --edition 2021 -o /tmp/load tools/load/main.rs`. What its words are, what it measures and
//! how, and the statuses that it ends with stand in docs/SPEED.md.

mod arguments;
mod connections;
mod measure;
mod members;
mod packets;
mod poller;
mod publishers;

use arguments::{Load, USAGE};
use measure::{measure, Outcome};
use std::env;
use std::process::ExitCode;

/// The status that the program ends with where a job was lost, doubled, strange, refused or not answered.
const NOT_COMPLETE: u8 = 1;

/// The status that it ends with where its words are wrong.
const WRONG_WORDS: u8 = 2;

/// The status that it ends with where the system refused, or the broker did not take in all connections.
const NOT_STARTED: u8 = 4;

fn main() -> ExitCode {
    let words = match env::args_os()
        .skip(1)
        .map(|word| word.into_string())
        .collect::<Result<Vec<_>, _>>()
    {
        Ok(words) => words,
        Err(word) => return wrong_words(&format!("{word:?} is no UTF-8")),
    };
    if words.is_empty() {
        println!("{USAGE}");
        return ExitCode::SUCCESS;
    }
    let load = match Load::from_words(&words) {
        Ok(load) => load,
        Err(fault) => return wrong_words(&fault),
    };
    match measure(&load) {
        Ok(outcome) => {
            println!("{}", outcome_line(&outcome));
            status_of(&outcome, load.all_jobs())
        }
        Err(error) => {
            eprintln!("{error}");
            ExitCode::from(NOT_STARTED)
        }
    }
}

/// Says what is wrong with the words, and what they may be.
fn wrong_words(fault: &str) -> ExitCode {
    eprintln!("{fault}\n{USAGE}");
    ExitCode::from(WRONG_WORDS)
}

/// The line that says how many jobs were delivered, and how fast.
fn outcome_line(outcome: &Outcome) -> String {
    let delivered = outcome.delivered.jobs;
    let microseconds = outcome.delivered.nanoseconds / 1_000;
    let (seconds, rest) = (microseconds / 1_000_000, microseconds % 1_000_000);
    let pace = (delivered * 1_000_000)
        .checked_div(microseconds)
        .unwrap_or(0);
    let mut line = format!("{delivered} jobs in {seconds}.{rest:06} seconds: {pace} jobs a second");
    if let Some(latency) = outcome.delivered.latency {
        let (median, most) = (latency.median / 1_000, latency.percentile_99 / 1_000);
        line += &format!("; median {median} microseconds, 99th percentile {most}");
    }
    line
}

/// The status for this outcome; where a job was not accepted and delivered once, standard error is told.
fn status_of(outcome: &Outcome, jobs: u64) -> ExitCode {
    let (published, delivered) = (&outcome.published, &outcome.delivered);
    let mut complete = true;
    for (who, error) in [
        ("publishers", &published.error),
        ("members", &delivered.error),
    ] {
        if let Some(error) = error {
            eprintln!("{who}: {error}");
            complete = false;
        }
    }
    let lost = published.accepted.saturating_sub(delivered.jobs);
    let unanswered = jobs.saturating_sub(published.accepted + published.refused);
    let (doubled, strange, refused) = (delivered.doubled, delivered.strange, published.refused);
    if [lost, doubled, strange, refused, unanswered] != [0; 5] {
        eprintln!("{lost} jobs lost, {doubled} doubled, {strange} strange, {refused} refused, {unanswered} not answered");
        complete = false;
    }
    if complete {
        ExitCode::SUCCESS
    } else {
        ExitCode::from(NOT_COMPLETE)
    }
}
