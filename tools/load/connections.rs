//! The connections of one thread: where it waits for them, and who answers what comes on them.

use crate::packets::{put_disconnect, Packet};
use crate::poller::{Poller, Ready};
use std::io::{self, ErrorKind, Read, Write};
use std::net::{Ipv4Addr, Shutdown, TcpStream};
use std::thread;
use std::time::{Duration, Instant};

/// How many bytes one read takes at most.
pub const ROOM: usize = 65_536;

/// After how many nanoseconds without a step a thread gives up.
const PATIENCE: u64 = 10_000_000_000;

/// For how long at most a thread waits until the broker has closed its connections.
const LAST_WAIT: Duration = Duration::from_secs(1);

/// An error of a load.
pub fn failed(what: &str) -> io::Error {
    io::Error::new(ErrorKind::Other, what)
}

/// Who answers what comes on the connections of one thread, which are numbered from 0.
pub trait Handler {
    /// Takes a packet that came, and puts what answers it behind the output. An error where its connection is over by it.
    fn receive(
        &mut self,
        number: usize,
        packet: Packet<'_>,
        output: &mut Vec<u8>,
    ) -> io::Result<()>;

    /// Puts what is due behind the output.
    fn put_due(&mut self, number: usize, output: &mut Vec<u8>);

    /// Learns how many nanoseconds ago the load began. Whether something may be due on any connection.
    fn learn(&mut self, moment: u64) -> bool;

    /// A number that grows with each step.
    fn steps(&self) -> u64;
}

/// The error for a packet that nobody expects, such as the DISCONNECT packet of a broker.
pub fn unexpected(packet: Packet<'_>) -> io::Error {
    let (first, code) = (packet.first, packet.reason_code());
    failed(&format!(
        "a connection was ended by a packet {first:#x} with code {code:#x}"
    ))
}

/// How a thread waits: it rests for so long, so that more comes at once, and then waits for a connection that is ready.
#[derive(Clone, Copy)]
pub struct Waiting {
    pub rest: Duration,
    pub longest: Duration,
}

/// A connection, of which no call waits: what came and was not looked at yet, and what is still to be written.
struct Connection {
    stream: TcpStream,
    input: Vec<u8>,
    filled: usize,
    output: Vec<u8>,
}

impl Connection {
    /// A connection to this port of the loopback.
    fn open(port: u16) -> io::Result<Connection> {
        let stream = TcpStream::connect((Ipv4Addr::LOCALHOST, port))?;
        stream.set_nodelay(true)?;
        stream.set_nonblocking(true)?;
        Ok(Connection {
            stream,
            input: vec![0; ROOM],
            filled: 0,
            output: Vec::with_capacity(2 * ROOM),
        })
    }

    /// Reads once. Whether more may have come.
    fn read(&mut self) -> io::Result<bool> {
        let room = &mut self.input[self.filled..];
        match self.stream.read(room) {
            Ok(0) if room.is_empty() => Err(failed("a packet is too long")),
            Ok(0) => Err(failed("the broker closed a connection")),
            Ok(count) => {
                let more = count == room.len();
                self.filled += count;
                Ok(more)
            }
            Err(error) if error.kind() == ErrorKind::WouldBlock => Ok(false),
            Err(error) => Err(failed(&format!("a connection cannot be read: {error}"))),
        }
    }

    /// Has the handler take all packets that came.
    fn receive_all(&mut self, number: usize, handler: &mut impl Handler) -> io::Result<()> {
        let mut rest = &self.input[..self.filled];
        while let Some((packet, behind)) = Packet::split_first(rest) {
            handler.receive(number, packet, &mut self.output)?;
            rest = behind;
        }
        let left = rest.len();
        self.input.copy_within(self.filled - left..self.filled, 0);
        self.filled = left;
        Ok(())
    }

    /// Writes what is to be written, as far as it goes in one call.
    fn write(&mut self) -> io::Result<()> {
        if self.output.is_empty() {
            return Ok(());
        }
        match self.stream.write(&self.output) {
            Ok(count) => {
                self.output.drain(..count);
                Ok(())
            }
            Err(error) if error.kind() == ErrorKind::WouldBlock => Ok(()),
            Err(error) => Err(failed(&format!("a connection cannot be written: {error}"))),
        }
    }

    /// Reads until the broker has closed the connection, or this moment has come.
    fn read_to_end(&mut self, deadline: Instant) -> io::Result<()> {
        self.stream.set_nonblocking(false)?;
        loop {
            let left = deadline.saturating_duration_since(Instant::now());
            if left.is_zero() {
                return Ok(());
            }
            self.stream.set_read_timeout(Some(left))?;
            if self.stream.read(&mut self.input)? == 0 {
                return Ok(());
            }
        }
    }

    /// Writes what is due, behind what is to be written already.
    fn write_due(&mut self, number: usize, handler: &mut impl Handler) -> io::Result<()> {
        handler.put_due(number, &mut self.output);
        self.write()
    }

    /// Reads what came, up to the end where there is one, and answers each read by one write.
    fn serve(&mut self, ready: Ready, handler: &mut impl Handler) -> io::Result<()> {
        let mut more = true;
        while more {
            more = self.read()? || ready.ended;
            self.receive_all(ready.number, handler)?;
            self.write_due(ready.number, handler)?;
        }
        Ok(())
    }
}

/// The connections of one thread, by their numbers.
pub struct Connections {
    poller: Poller,
    each: Vec<Connection>,
}

/// The nanoseconds since this moment.
fn nanoseconds_since(start: Instant) -> u64 {
    start.elapsed().as_nanos() as u64
}

impl Connections {
    /// No connections yet.
    pub fn new() -> io::Result<Connections> {
        let poller = Poller::new()?;
        Ok(Connections {
            poller,
            each: Vec::new(),
        })
    }

    /// Connects one more, which these bytes are to be written on first.
    pub fn connect(&mut self, port: u16, first: &[u8]) -> io::Result<()> {
        let mut connection = Connection::open(port)
            .map_err(|error| failed(&format!("cannot connect to 127.0.0.1:{port}: {error}")))?;
        self.poller.register(&connection.stream, self.each.len())?;
        connection.output.extend_from_slice(first);
        self.each.push(connection);
        Ok(())
    }

    /// Writes what is due on each connection.
    fn write_all_due(&mut self, handler: &mut impl Handler) -> io::Result<()> {
        for (number, connection) in self.each.iter_mut().enumerate() {
            connection.write_due(number, handler)?;
        }
        Ok(())
    }

    /// Waits for a while, tells the handler the moment, serves the connections that are ready, and then writes what is due on all of them. The
    /// moment.
    fn turn(
        &mut self,
        start: Instant,
        handler: &mut impl Handler,
        waiting: Waiting,
    ) -> io::Result<u64> {
        if !waiting.rest.is_zero() {
            thread::sleep(waiting.rest);
        }
        self.poller.wait(waiting.longest)?;
        let moment = nanoseconds_since(start);
        let is_due = handler.learn(moment);
        for ready in self.poller.ready() {
            self.each[ready.number].serve(ready, handler)?;
        }
        if is_due {
            self.write_all_due(handler)?;
        }
        Ok(moment)
    }

    /// Goes on until the handler has come so far. An error where a connection failed, or nothing went on for ten seconds.
    pub fn run<H: Handler>(
        &mut self,
        start: Instant,
        handler: &mut H,
        has_come: fn(&H) -> bool,
        waiting: Waiting,
    ) -> io::Result<()> {
        let mut last_step = nanoseconds_since(start);
        let mut steps = handler.steps();
        handler.learn(last_step);
        self.write_all_due(handler)?;
        while !has_come(handler) {
            let moment = self.turn(start, handler, waiting)?;
            if handler.steps() != steps {
                steps = handler.steps();
                last_step = moment;
            }
            if moment - last_step > PATIENCE {
                return Err(failed("nothing went on for ten seconds"));
            }
        }
        Ok(())
    }

    /// Ends all connections by a DISCONNECT packet, as far as one can be written without a wait. Then it waits until the broker has closed them,
    /// and for a second at most, so that the broker has read all that was written before the next load comes with the same clients.
    pub fn disconnect(mut self) {
        for connection in &mut self.each {
            put_disconnect(&mut connection.output);
            let _ = connection.write();
            let _ = connection.stream.shutdown(Shutdown::Write);
        }
        let deadline = Instant::now() + LAST_WAIT;
        for connection in &mut self.each {
            let _ = connection.read_to_end(deadline);
        }
    }
}
