//! The publishers of a load: each keeps a window of unacknowledged PUBLISH packets under way.

use crate::arguments::Load;
use crate::connections::{failed, unexpected, Handler, ROOM};
use crate::measure::Shared;
use crate::packets::{Job, Packet, PublishForm, CONNACK, PUBACK};
use std::io;
use std::sync::atomic::Ordering;

/// A publisher: its next job, the Packet Identifiers that no unacknowledged packet has, and of each whether one has it.
struct Publisher {
    next: u32,
    free: Vec<u16>,
    unacknowledged: Vec<bool>,
}

impl Publisher {
    /// One with the Packet Identifiers from 1 to this.
    fn new(window: u16) -> Publisher {
        Publisher {
            next: 0,
            free: (1..=window).rev().collect(),
            unacknowledged: vec![false; usize::from(window) + 1],
        }
    }

    /// A Packet Identifier that no unacknowledged packet has, which one has from now on.
    fn take(&mut self) -> Option<u16> {
        let packet_identifier = self.free.pop()?;
        self.unacknowledged[usize::from(packet_identifier)] = true;
        Some(packet_identifier)
    }

    /// Frees the Packet Identifier of an acknowledged packet. Whether one had it.
    fn free(&mut self, packet_identifier: u16) -> bool {
        match self.unacknowledged.get_mut(usize::from(packet_identifier)) {
            Some(unacknowledged) if *unacknowledged => *unacknowledged = false,
            _ => return false,
        }
        self.free.push(packet_identifier);
        true
    }
}

/// The publishers of a load, and what became of their jobs.
pub struct Publishers<'a> {
    load: &'a Load,
    shared: &'a Shared,
    form: PublishForm,
    each: Vec<Publisher>,
    joined: usize,
    started: bool,
    sent: u64,
    pub accepted: u64,
    pub refused: u64,
    moment: u64,
}

impl<'a> Publishers<'a> {
    pub fn new(load: &'a Load, shared: &'a Shared) -> Publishers<'a> {
        Publishers {
            load,
            shared,
            form: PublishForm::new(&load.topic, load.payload),
            each: (0..load.publishers)
                .map(|_| Publisher::new(load.window))
                .collect(),
            joined: 0,
            started: false,
            sent: 0,
            accepted: 0,
            refused: 0,
            moment: 0,
        }
    }

    /// From now on they publish.
    pub fn start(&mut self) {
        self.started = true;
    }

    /// Whether the broker has taken in all connections.
    pub fn have_joined(&self) -> bool {
        self.joined >= self.load.publishers
    }

    /// Whether each job was answered, or the members have stopped.
    pub fn are_done(&self) -> bool {
        self.accepted + self.refused >= self.load.all_jobs()
            || self.shared.stopped.load(Ordering::SeqCst)
    }

    /// How many jobs may be published now, so that no more are published and not delivered than the load says.
    fn room(&self) -> u64 {
        if self.load.ahead == 0 {
            return u64::MAX;
        }
        let delivered = self.shared.delivered.load(Ordering::SeqCst);
        self.load
            .ahead
            .saturating_sub(self.sent.saturating_sub(delivered))
    }

    /// Up to which job the publisher of this number may go by now.
    fn due(&self, number: usize) -> u32 {
        if self.load.pace == 0 {
            self.load.jobs
        } else {
            self.load.jobs_due(self.moment, number)
        }
    }
}

impl Handler for Publishers<'_> {
    fn receive(
        &mut self,
        number: usize,
        packet: Packet<'_>,
        _output: &mut Vec<u8>,
    ) -> io::Result<()> {
        let (packet_identifier, code) = match (packet.first, packet.body) {
            (PUBACK, [high, low]) => (u16::from_be_bytes([*high, *low]), 0),
            (PUBACK, [high, low, code, ..]) => (u16::from_be_bytes([*high, *low]), *code),
            (CONNACK, [_, 0, ..]) => {
                self.joined += 1;
                return Ok(());
            }
            _ => return Err(unexpected(packet)),
        };
        if !self.each[number].free(packet_identifier) {
            return Err(failed(
                "a PUBACK packet came for no unacknowledged PUBLISH packet",
            ));
        }
        if code < 0x80 {
            self.accepted += 1;
        } else {
            self.refused += 1;
        }
        Ok(())
    }

    fn put_due(&mut self, number: usize, output: &mut Vec<u8>) {
        if !self.started {
            return;
        }
        let (room, due, moment) = (self.room(), self.due(number), self.moment);
        let publisher = &mut self.each[number];
        let mut count = 0;
        while publisher.next < due && count < room && output.len() < ROOM {
            let packet_identifier = match publisher.take() {
                Some(packet_identifier) => packet_identifier,
                None => break,
            };
            let job = Job {
                moment,
                publisher: number as u32,
                number: publisher.next,
            };
            self.form.put(output, packet_identifier, job);
            publisher.next += 1;
            count += 1;
        }
        self.sent += count;
    }

    fn learn(&mut self, moment: u64) -> bool {
        self.moment = moment;
        true
    }

    fn steps(&self) -> u64 {
        self.joined as u64 + self.accepted + self.refused
    }
}
