//! The members of a load, which acknowledge each job that they are handed, and beside them the silent connections, which only ping.

use crate::arguments::{Load, SECOND};
use crate::connections::{failed, unexpected, Handler};
use crate::measure::Shared;
use crate::packets::{
    put_pingreq, put_puback, Job, Packet, CONNACK, PINGRESP, PUBLISH, PUBLISH_AGAIN, SUBACK,
};
use std::io;
use std::sync::atomic::Ordering;

/// The members and the silent connections of a load, and what the members were handed.
pub struct Members<'a> {
    load: &'a Load,
    shared: &'a Shared,
    joined: usize,
    seen: Vec<bool>,
    /// The nanoseconds from PUBLISH to delivery, of each job, where there is a pace.
    pub times: Vec<u64>,
    pub delivered: u64,
    pub doubled: u64,
    pub strange: u64,
    moment: u64,
    /// The moment of the last new delivery.
    pub last: u64,
    second: u64,
    pings: bool,
}

impl<'a> Members<'a> {
    pub fn new(load: &'a Load, shared: &'a Shared) -> Members<'a> {
        let jobs = load.all_jobs() as usize;
        Members {
            load,
            shared,
            joined: 0,
            seen: vec![false; jobs],
            times: Vec::with_capacity(if load.pace == 0 { 0 } else { jobs }),
            delivered: 0,
            doubled: 0,
            strange: 0,
            moment: 0,
            last: 0,
            second: 0,
            pings: false,
        }
    }

    /// Whether the broker has taken in all connections.
    pub fn have_joined(&self) -> bool {
        self.joined >= self.load.members + self.load.silent
    }

    /// Whether all jobs that were accepted have been delivered.
    pub fn are_done(&self) -> bool {
        self.delivered >= self.shared.wanted.load(Ordering::SeqCst)
    }

    /// Counts a job that was delivered.
    fn count(&mut self, job: Job) {
        let place = self.load.place_of(job.publisher, job.number);
        match place.map(|place| &mut self.seen[place]) {
            None => self.strange += 1,
            Some(true) => self.doubled += 1,
            Some(seen) => {
                *seen = true;
                self.last = self.moment;
                self.delivered += 1;
                if self.load.pace > 0 {
                    self.times.push(self.moment.saturating_sub(job.moment));
                }
            }
        }
    }
}

impl Handler for Members<'_> {
    fn receive(
        &mut self,
        number: usize,
        packet: Packet<'_>,
        output: &mut Vec<u8>,
    ) -> io::Result<()> {
        match (packet.first, packet.body) {
            (PUBLISH | PUBLISH_AGAIN, _) => {
                let (packet_identifier, job) = packet
                    .delivery(self.load.payload)
                    .ok_or_else(|| failed("a PUBLISH packet came that is no job of this load"))?;
                self.count(job);
                put_puback(output, packet_identifier);
            }
            (PINGRESP, _) => {}
            (CONNACK, [_, 0, ..]) => self.joined += usize::from(number >= self.load.members),
            (SUBACK, [_, _, 0, 1]) => self.joined += 1,
            _ => return Err(unexpected(packet)),
        }
        Ok(())
    }

    fn put_due(&mut self, number: usize, output: &mut Vec<u8>) {
        if self.pings && number >= self.load.members {
            put_pingreq(output);
        }
    }

    fn learn(&mut self, moment: u64) -> bool {
        self.shared
            .delivered
            .store(self.delivered, Ordering::SeqCst);
        self.moment = moment;
        let second = moment / SECOND;
        self.pings = second != self.second;
        self.second = second;
        self.pings
    }

    fn steps(&self) -> u64 {
        self.joined as u64 + self.delivered
    }
}
