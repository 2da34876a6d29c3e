//! The load that the words of the command line ask for.

use crate::packets::LEAST_PAYLOAD;
use std::time::Duration;

/// What the words may be.
pub const USAGE: &str = "usage: load PORT PUBLISHERS MEMBERS JOBS [--window N] [--payload N] [--receive N] [--pace N] [--silent N] [--ahead N] [--rest N] [--share TEXT] [--topic TEXT]";

/// How many jobs there may be in all.
const MOST_JOBS: u64 = 1 << 28;

/// How many bytes a topic or a share has at most.
const LONGEST_TEXT: usize = 1_024;

/// Nanoseconds of a second.
pub const SECOND: u64 = 1_000_000_000;

/// A load: to which port, how many connections of each kind, so many jobs of each publisher, and in what shape.
pub struct Load {
    pub port: u16,
    pub publishers: usize,
    pub members: usize,
    pub silent: usize,
    pub jobs: u32,
    pub window: u16,
    pub payload: usize,
    pub receive_maximum: u16,
    /// Jobs a second over all publishers; 0 for as many as go.
    pub pace: u64,
    /// How many jobs may be published and not delivered; 0 for as many as there are.
    pub ahead: u64,
    /// For how long a thread rests before it looks what came, where there is no pace.
    pub rest: Duration,
    pub share: String,
    pub topic: String,
}

/// The number that a word spells, which is to be from the least to the most.
fn number<N: TryFrom<u64>>(name: &str, word: &str, least: u64, most: u64) -> Result<N, String> {
    word.parse::<u64>()
        .ok()
        .filter(|number| (least..=most).contains(number))
        .and_then(|number| N::try_from(number).ok())
        .ok_or_else(|| format!("{name} is a number from {least} to {most}, and not {word}"))
}

/// A topic or a share of these bytes, if it is not too long.
fn text(name: &str, word: &str) -> Result<String, String> {
    if word.len() > LONGEST_TEXT {
        return Err(format!("{name} has more than {LONGEST_TEXT} bytes"));
    }
    Ok(word.to_string())
}

impl Load {
    /// The load that these words ask for, or what is wrong with them.
    pub fn from_words(words: &[String]) -> Result<Load, String> {
        let (numbers, options) = match words {
            [port, publishers, members, jobs, options @ ..] => {
                ([port, publishers, members, jobs], options)
            }
            _ => return Err("a load has a port, publishers, members and jobs".to_string()),
        };
        let mut load = Load::from_numbers(numbers)?;
        for option in options.chunks(2) {
            match option {
                [name, value] => load.set(name, value)?,
                _ => return Err(format!("{} has no value", option[0])),
            }
        }
        if load.all_jobs() > MOST_JOBS {
            return Err(format!("there are more than {MOST_JOBS} jobs in all"));
        }
        Ok(load)
    }

    /// A load of these numbers, with no option.
    fn from_numbers([port, publishers, members, jobs]: [&String; 4]) -> Result<Load, String> {
        Ok(Load {
            port: number("PORT", port, 1, 65_535)?,
            publishers: number("PUBLISHERS", publishers, 1, 512)?,
            members: number("MEMBERS", members, 1, 512)?,
            silent: 0,
            jobs: number("JOBS", jobs, 1, MOST_JOBS)?,
            window: 100,
            payload: 32,
            receive_maximum: 256,
            pace: 0,
            ahead: 0,
            rest: Duration::from_micros(100),
            share: "$share/g/job".to_string(),
            topic: "job".to_string(),
        })
    }

    /// Sets what an option says.
    fn set(&mut self, name: &str, value: &str) -> Result<(), String> {
        match name {
            "--window" => self.window = number(name, value, 1, 65_535)?,
            "--payload" => self.payload = number(name, value, LEAST_PAYLOAD as u64, 32_768)?,
            "--receive" => self.receive_maximum = number(name, value, 1, 65_535)?,
            "--pace" => self.pace = number(name, value, 0, 10_000_000)?,
            "--silent" => self.silent = number(name, value, 0, 1_000)?,
            "--ahead" => self.ahead = number(name, value, 0, u64::MAX)?,
            "--rest" => self.rest = Duration::from_micros(number(name, value, 0, 1_000_000)?),
            "--share" => self.share = text(name, value)?,
            "--topic" => self.topic = text(name, value)?,
            _ => return Err(format!("there is no option {name}")),
        }
        Ok(())
    }

    /// How many jobs there are.
    pub fn all_jobs(&self) -> u64 {
        u64::from(self.jobs) * self.publishers as u64
    }

    /// How many jobs the publisher of this number should have published by this moment, in nanoseconds since the start.
    pub fn jobs_due(&self, moment: u64, number: usize) -> u32 {
        let all = moment.saturating_mul(self.pace) / SECOND;
        let due = (all + number as u64) / self.publishers as u64;
        u32::try_from(due).map_or(self.jobs, |due| due.min(self.jobs))
    }

    /// The place of a job among all; `None` where there is no such job.
    pub fn place_of(&self, publisher: u32, job: u32) -> Option<usize> {
        if publisher as usize >= self.publishers || job >= self.jobs {
            return None;
        }
        Some(publisher as usize * self.jobs as usize + job as usize)
    }
}
