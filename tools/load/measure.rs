//! A load from its first connection to its last job, and what it came to.

use crate::arguments::Load;
use crate::connections::{failed, Connections, Waiting};
use crate::members::Members;
use crate::packets::{put_connect, put_subscribe};
use crate::publishers::Publishers;
use std::io;
use std::sync::atomic::{AtomicBool, AtomicU64, Ordering};
use std::thread;
use std::time::{Duration, Instant};

/// The Keep Alive of silent connections, in seconds.
const KEEP_ALIVE: u16 = 60;

/// For how long at most a thread waits at once.
const LONGEST_WAIT: Duration = Duration::from_millis(20);

/// The same of publishers that have to look how many jobs were delivered.
const SHORT_WAIT: Duration = Duration::from_millis(1);

/// After how long publishers with a pace look whether a job is due.
const LOOK: Duration = Duration::from_micros(20);

/// How threads wait until the broker has taken in all connections.
const JOINING: Waiting = Waiting {
    rest: Duration::ZERO,
    longest: LONGEST_WAIT,
};

/// What the two threads of a load tell each other.
pub struct Shared {
    /// How many jobs were delivered.
    pub delivered: AtomicU64,
    /// How many are to be delivered, once that is known.
    pub wanted: AtomicU64,
    /// Whether the members have stopped.
    pub stopped: AtomicBool,
}

/// The median and the 99th percentile of the time from PUBLISH to delivery, in nanoseconds.
#[derive(Clone, Copy)]
pub struct Latency {
    pub median: u64,
    pub percentile_99: u64,
}

impl Latency {
    /// That of these times; `None` where there are none.
    fn of(mut times: Vec<u64>) -> Option<Latency> {
        times.sort_unstable();
        let above = times.len() / 100;
        Some(Latency {
            median: *times.get(times.len() / 2)?,
            percentile_99: *times.iter().rev().nth(above)?,
        })
    }
}

/// What became of the jobs as their publishers were told, and why the publishers did not go on to the end.
pub struct Published {
    pub accepted: u64,
    pub refused: u64,
    pub error: Option<io::Error>,
}

/// What members were handed: how many jobs, how often one again, and one that was none of the load, up to which moment; and why the members
/// did not go on to the end.
pub struct Delivered {
    pub jobs: u64,
    pub doubled: u64,
    pub strange: u64,
    pub nanoseconds: u64,
    pub latency: Option<Latency>,
    pub error: Option<io::Error>,
}

/// What became of a load.
pub struct Outcome {
    pub published: Published,
    pub delivered: Delivered,
}

/// Connects the members and the silent connections of a load.
fn connect_members(load: &Load) -> io::Result<Connections> {
    let mut connections = Connections::new()?;
    for number in 0..load.members {
        let mut first = Vec::new();
        put_connect(
            &mut first,
            &format!("load-member-{number}"),
            0,
            load.receive_maximum,
        );
        put_subscribe(&mut first, &load.share);
        connections.connect(load.port, &first)?;
    }
    for number in 0..load.silent {
        let mut first = Vec::new();
        put_connect(
            &mut first,
            &format!("load-silent-{number}"),
            KEEP_ALIVE,
            u16::MAX,
        );
        connections.connect(load.port, &first)?;
    }
    Ok(connections)
}

/// Connects the publishers of a load.
fn connect_publishers(load: &Load) -> io::Result<Connections> {
    let mut connections = Connections::new()?;
    for number in 0..load.publishers {
        let mut first = Vec::new();
        put_connect(&mut first, &format!("load-publisher-{number}"), 0, u16::MAX);
        connections.connect(load.port, &first)?;
    }
    Ok(connections)
}

/// How the publishers of a load wait.
fn publishers_wait(load: &Load) -> Waiting {
    if load.pace > 0 {
        Waiting {
            rest: LOOK,
            longest: Duration::ZERO,
        }
    } else {
        Waiting {
            rest: load.rest,
            longest: if load.ahead > 0 {
                SHORT_WAIT
            } else {
                LONGEST_WAIT
            },
        }
    }
}

/// How the members of a load wait.
fn members_wait(load: &Load) -> Waiting {
    Waiting {
        rest: if load.pace > 0 {
            Duration::ZERO
        } else {
            load.rest
        },
        longest: LONGEST_WAIT,
    }
}

/// Publishes all jobs of a load.
fn publish(
    start: Instant,
    mut connections: Connections,
    mut publishers: Publishers<'_>,
    waiting: Waiting,
    shared: &Shared,
) -> Published {
    publishers.start();
    let error = connections
        .run(start, &mut publishers, Publishers::are_done, waiting)
        .err();
    shared.wanted.store(publishers.accepted, Ordering::SeqCst);
    connections.disconnect();
    Published {
        accepted: publishers.accepted,
        refused: publishers.refused,
        error,
    }
}

/// Acknowledges all jobs of a load.
fn deliver(
    start: Instant,
    mut connections: Connections,
    mut members: Members<'_>,
    waiting: Waiting,
    shared: &Shared,
) -> Delivered {
    let error = connections
        .run(start, &mut members, Members::are_done, waiting)
        .err();
    shared.stopped.store(true, Ordering::SeqCst);
    connections.disconnect();
    Delivered {
        jobs: members.delivered,
        doubled: members.doubled,
        strange: members.strange,
        nanoseconds: members.last,
        latency: Latency::of(members.times),
        error,
    }
}

/// Runs a load. An error where the system refused, or the broker did not take in all connections.
pub fn measure(load: &Load) -> io::Result<Outcome> {
    let shared = Shared {
        delivered: AtomicU64::new(0),
        wanted: AtomicU64::new(u64::MAX),
        stopped: AtomicBool::new(false),
    };
    let opening = Instant::now();
    let mut members = Members::new(load, &shared);
    let mut listening = connect_members(load)?;
    listening.run(opening, &mut members, Members::have_joined, JOINING)?;
    let mut publishers = Publishers::new(load, &shared);
    let mut speaking = connect_publishers(load)?;
    speaking.run(opening, &mut publishers, Publishers::have_joined, JOINING)?;
    let start = Instant::now();
    thread::scope(|scope| {
        let delivering = thread::Builder::new().spawn_scoped(scope, || {
            deliver(start, listening, members, members_wait(load), &shared)
        })?;
        let published = publish(start, speaking, publishers, publishers_wait(load), &shared);
        let delivered = delivering
            .join()
            .map_err(|_| failed("the thread of the members panicked"))?;
        Ok(Outcome {
            published,
            delivered,
        })
    })
}
