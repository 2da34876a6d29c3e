//! Waiting for many connections at once, by epoll of Linux.
//!
//! std has no call for it, so these three are of the C library that std is linked with.

use std::io;
use std::net::TcpStream;
use std::os::raw::c_int;
use std::os::unix::io::{AsRawFd, FromRawFd, OwnedFd};
use std::time::Duration;

const EPOLL_CLOEXEC: c_int = 0x80000;
const EPOLL_CTL_ADD: c_int = 1;
const EPOLLIN: u32 = 1;
const EPOLLOUT: u32 = 4;
const EPOLLERR: u32 = 8;
const EPOLLHUP: u32 = 16;
const EPOLLRDHUP: u32 = 1 << 13;
const EPOLLET: u32 = 1 << 31;

/// How many events one wait tells of at most.
const MOST_EVENTS: usize = 1_024;

/// The system's `struct epoll_event`.
#[repr(C)]
#[cfg_attr(target_arch = "x86_64", repr(packed))]
#[derive(Clone, Copy)]
struct Event {
    events: u32,
    number: u64,
}

extern "C" {
    fn epoll_create1(flags: c_int) -> c_int;
    fn epoll_ctl(epoll: c_int, operation: c_int, descriptor: c_int, event: *mut Event) -> c_int;
    fn epoll_wait(epoll: c_int, events: *mut Event, most: c_int, milliseconds: c_int) -> c_int;
}

/// A stream that is ready: its number, and whether it ends behind what came on it.
#[derive(Clone, Copy)]
pub struct Ready {
    pub number: usize,
    pub ended: bool,
}

/// Streams that are waited for, and those that were ready in the last wait.
pub struct Poller {
    epoll: OwnedFd,
    events: Vec<Event>,
    ready: usize,
}

impl Poller {
    pub fn new() -> io::Result<Poller> {
        // SAFETY: the call takes no pointer.
        let descriptor = unsafe { epoll_create1(EPOLL_CLOEXEC) };
        if descriptor < 0 {
            return Err(io::Error::last_os_error());
        }
        // SAFETY: the descriptor was opened above, and nobody else has it.
        let epoll = unsafe { OwnedFd::from_raw_fd(descriptor) };
        let events = vec![
            Event {
                events: 0,
                number: 0
            };
            MOST_EVENTS
        ];
        Ok(Poller {
            epoll,
            events,
            ready: 0,
        })
    }

    /// Waits for this stream, too, from now on: it is ready under this number each time that bytes came or may be written again.
    pub fn register(&self, stream: &TcpStream, number: usize) -> io::Result<()> {
        let events = EPOLLIN | EPOLLOUT | EPOLLRDHUP | EPOLLET;
        let mut event = Event {
            events,
            number: number as u64,
        };
        // SAFETY: both descriptors are open, and the event is read within the call.
        let status = unsafe {
            epoll_ctl(
                self.epoll.as_raw_fd(),
                EPOLL_CTL_ADD,
                stream.as_raw_fd(),
                &mut event,
            )
        };
        if status < 0 {
            return Err(io::Error::last_os_error());
        }
        Ok(())
    }

    /// Waits until a stream is ready, and for so long at most.
    pub fn wait(&mut self, longest: Duration) -> io::Result<()> {
        let (events, most) = (self.events.as_mut_ptr(), self.events.len() as c_int);
        // SAFETY: there is room for as many events as the call is told, and the system writes whole events.
        let count = unsafe {
            epoll_wait(
                self.epoll.as_raw_fd(),
                events,
                most,
                longest.as_millis() as c_int,
            )
        };
        self.ready = count.max(0) as usize;
        if count >= 0 {
            return Ok(());
        }
        match io::Error::last_os_error() {
            error if error.kind() == io::ErrorKind::Interrupted => Ok(()),
            error => Err(error),
        }
    }

    /// The streams that were ready in the last wait.
    pub fn ready(&self) -> impl Iterator<Item = Ready> + '_ {
        self.events[..self.ready].iter().map(|event| Ready {
            number: event.number as usize,
            ended: event.events & (EPOLLRDHUP | EPOLLHUP | EPOLLERR) != 0,
        })
    }
}
