"""The clients of `tools/fleet-of-brokers`: publishers that come by HAProxy, and workers that have a connection to each broker."""
import collections
import random
import selectors
import socket
import struct
import time

from frames import PINGREQ, connect, cut, disconnect, job_of, puback, publish, subscribe

SHARE, TOPIC = "$share/workers/jobs", "jobs"
QUOTA_EXCEEDED = 0x97
SERVER_BUSY = 0x89
SERVER_SHUTTING_DOWN = 0x8B


class Fault(Exception):
    """What is not to be was seen."""


class Link:
    """A connection, with the packets that come on it."""

    def __init__(self, run, port):
        self.run, self.input, self.output = run, bytearray(), bytearray()
        self.gone = False
        self.joined = False  # whether its CONNACK 00 was read
        self.run_of_broker = None  # the run of the broker at which it is, once that is known
        self.socket = socket.socket()
        self.socket.setblocking(False)
        self.socket.connect_ex(("127.0.0.1", port))
        self.local_port = self.socket.getsockname()[1]
        run.selector.register(self.socket, selectors.EVENT_READ | selectors.EVENT_WRITE, self)

    def say(self, sent):
        self.output += sent
        if not self.gone:
            self.run.selector.modify(self.socket, selectors.EVENT_READ | selectors.EVENT_WRITE, self)

    def ready(self, events):
        if events & selectors.EVENT_WRITE:
            self.write()
        if events & selectors.EVENT_READ and not self.gone:
            self.read()

    def write(self):
        try:
            del self.output[: self.socket.send(self.output)]
        except BlockingIOError:
            return
        except OSError:
            # what came before the end is still to be read
            self.output.clear()
        if not self.output:
            self.run.selector.modify(self.socket, selectors.EVENT_READ, self)

    def read(self):
        try:
            came = self.socket.recv(65_536)
        except BlockingIOError:
            return
        except OSError:
            came = b""
        self.input += came
        for first, body in cut(self.input):
            if not self.gone:
                self.hear(first, body)
        if not came and not self.gone:
            self.close()
            self.ended()

    def close(self, reset=False):
        self.gone = True
        self.run.selector.unregister(self.socket)
        if reset:
            self.socket.setsockopt(socket.SOL_SOCKET, socket.SO_LINGER, struct.pack("ii", 1, 0))
        self.socket.close()


class PublisherLink(Link):
    """A connection of a publisher, by HAProxy to one broker."""

    def __init__(self, run, publisher, port):
        super().__init__(run, port)
        self.publisher = publisher
        self.published = []  # the jobs of its PUBLISH packets, in their order
        self.accepted = []  # those with PUBACK 00, in their order
        self.refused = collections.Counter()  # how often each had PUBACK 97
        self.open = {}  # those without a PUBACK, by Packet Identifier
        self.by_itself = False  # whether the publisher ended it
        self.allowed = publisher.rule.choice((10, 40, 150))  # how many it publishes before it leaves
        self.breaks_at = publisher.rule.randint(5, 30) if publisher.rule.random() < 0.2 else None  # at which it breaks the connection, where one has no PUBACK
        self.began = time.monotonic()
        self.waits_until = self.began
        self.say(connect(publisher.name))

    def publish(self, job):
        identifier = len(self.published) % 65_535 + 1
        self.published.append(job)
        self.open[identifier] = job
        self.say(publish(TOPIC, job, identifier))

    def hear(self, first, body):
        if first == 0x20 and body[1] == 0:
            self.joined = True
            self.run.finds_broker_of(self)
        elif first == 0x20 and body[1] == SERVER_BUSY:
            self.run.counts["CONNACK 89"] += 1
        elif first == 0x40:
            self.hear_puback(int.from_bytes(body[:2], "big"), body[2] if len(body) > 2 else 0)
        elif first == 0xE0 and body and body[0] == SERVER_SHUTTING_DOWN:
            self.run.counts["DISCONNECT 8B"] += 1
        else:
            raise Fault(f"{self.publisher}: packet {first:#x} {body.hex()}")

    def hear_puback(self, identifier, code):
        if not self.open or next(iter(self.open)) != identifier:
            raise Fault(f"{self.publisher}: PUBACK of {identifier}, which is not the oldest without one")
        job = self.open.pop(identifier)
        if code == 0:
            self.accepted.append(job)
        elif code == QUOTA_EXCEEDED:
            self.run.counts["PUBACK 97"] += 1
            self.refused[job] += 1
            self.publisher.waiting.appendleft(job)
            self.waits_until = time.monotonic() + 0.2
        else:
            raise Fault(f"{self.publisher}: PUBACK {code:#x}")

    def ended(self):
        self.publisher.over(self)


class Publisher:
    """A client that publishes its jobs in their order, over one connection after another, until each has a PUBACK 00."""

    def __init__(self, run, number, jobs):
        self.run, self.rule = run, random.Random(f"publisher {run.seed}/{number}")
        self.name = f"publisher-{number}" if number % 4 else ""
        self.number = number
        self.waiting = collections.deque(f"{number} {job}".encode() for job in range(jobs))
        self.rate = jobs / run.SECONDS * self.rule.uniform(0.9, 1.6)
        self.window = self.rule.choice((1, 4, 16))
        self.link, self.links = None, []
        self.comes_at = time.monotonic() + self.rule.uniform(0, 2)
        self.is_done = False

    def __str__(self):
        return f"publisher {self.number}"

    def act(self, now):
        if self.is_done:
            return
        link = self.link
        if link is None:
            if now >= self.comes_at:
                self.link = PublisherLink(self.run, self, self.run.proxy.port)
                self.links.append(self.link)
            return
        if not link.joined or now < link.waits_until:
            return
        while self.waiting and len(link.open) < self.window and len(link.published) < min(link.allowed, (now - link.began) * self.rate):
            link.publish(self.waiting.popleft())
        if link.breaks_at is not None and link.open and len(link.published) >= link.breaks_at:
            self.run.counts["connections that publishers broke"] += 1
            link.write()
            link.close(reset=self.rule.random() < 0.5)
            self.over(link)
        elif not link.open and (not self.waiting or len(link.published) >= link.allowed):
            self.leave(now)

    def leave(self, now):
        """Ends its connection in an orderly way, with each job answered."""
        self.link.by_itself = True
        self.link.say(disconnect())
        self.link.write()
        self.link.close()
        self.link = None
        self.comes_at = now + self.rule.uniform(0, 0.2)
        self.is_done = not self.waiting

    def over(self, link):
        """Its connection broke: what has no PUBACK is published again, over the next one."""
        self.waiting.extendleft(reversed(link.open.values()))
        self.run.counts["connections of publishers that broke"] += link.joined
        self.run.counts["jobs published again"] += len(link.open)
        self.link = None
        self.comes_at = time.monotonic() + self.rule.uniform(0.1, 0.6)


class Session:
    """A worker's session at one run of a broker."""

    def __init__(self):
        self.last = {}  # by Packet Identifier, the job that was sent under it last
        self.window = {}  # what was sent on its latest connection and has no PUBACK
        self.first = []  # its first hand-outs, in the order in which they came
        self.may_hide = False  # whether a connection of it ended with what was not read


class WorkerLink(Link):
    """A connection of a worker to one broker."""

    def __init__(self, run, worker, broker):
        super().__init__(run, broker.port)
        self.worker, self.broker = worker, broker
        self.run_of_broker = broker.latest
        self.session = None
        self.resumed = False
        self.again = set()  # identifiers that were sent again
        self.work = collections.deque()  # the moment at which a job is done, and its identifier
        self.pings = 0  # PINGREQ packets without an answer
        self.drops_at = time.monotonic() + worker.rule.uniform(1, 6) if worker.rule.random() < 0.5 else None
        self.say(connect(worker.name, clean=False, expiry=300, receive_maximum=worker.maximum))

    def hear(self, first, body):
        if first == 0x20:
            self.hear_connack(*body[:2])
        elif first == 0x90:
            if body[-1] != 1:
                raise Fault(f"{self.worker.name}: SUBACK {body.hex()}")
        elif first in (0x32, 0x3A):
            self.hear_job(first == 0x3A, body)
        elif first == 0xD0:
            self.pings -= 1
        elif first != 0xE0 or body != bytes([SERVER_SHUTTING_DOWN]):
            raise Fault(f"{self.worker.name}: packet {first:#x} {body.hex()}")

    def hear_connack(self, present, code):
        sessions = self.run_of_broker.sessions
        if code == SERVER_BUSY:
            self.run.counts["CONNACK 89"] += 1
            return
        if code or present != (self.worker.name in sessions):
            raise Fault(f"{self.worker.name} at {self.run_of_broker}: CONNACK {code:#x}, Session Present {present}")
        self.joined, self.resumed = True, bool(present)
        self.session = sessions.setdefault(self.worker.name, Session())
        self.session.window.clear()
        self.say(subscribe(SHARE))

    def hear_job(self, again, body):
        _, identifier, job = job_of(body)
        session, where = self.session, f"{self.worker.name} at {self.run_of_broker}, job {job.decode()} under {identifier}, DUP {int(again)}"
        if session is None or identifier in session.window or len(session.window) >= self.worker.maximum:
            raise Fault(f"{where}: beyond its session, or its Receive Maximum of {self.worker.maximum}")
        if again and (not self.resumed or identifier in self.again):
            raise Fault(f"{where}: sent again, and its session was not resumed, or it was sent again before")
        self.run.counts["deliveries"] += 1
        if again and session.last.get(identifier) == job:
            self.again.add(identifier)
            self.run.counts["with DUP 1"] += 1
        else:
            if again:
                if not session.may_hide:
                    raise Fault(f"{where}: sent again, and it was never sent to this session")
                self.again.add(identifier)
                self.run.counts["first seen with DUP 1"] += 1
            session.first.append(job)
            self.run_of_broker.handed[job] += 1
        session.last[identifier] = session.window[identifier] = job
        self.work.append((time.monotonic() + self.worker.rule.uniform(0, self.worker.seconds), identifier))

    def act(self, now):
        if not self.joined:
            return
        while self.work and not self.worker.is_idle and self.work[0][0] <= now:
            identifier = self.work.popleft()[1]
            self.run_of_broker.done.add(self.session.window.pop(identifier))
            self.run_of_broker.pubacks += 1
            self.say(puback(identifier))
        if self.drops_at is not None and now >= self.drops_at and not self.run.is_ending:
            self.run.counts["connections that workers dropped"] += 1
            self.close(reset=self.worker.rule.random() < 0.5)
            self.ended()

    def ping(self):
        self.pings += 1
        self.say(PINGREQ)

    def ended(self):
        if self.session is not None:
            self.session.may_hide = True
        self.worker.over(self)


class Worker:
    """A client with a connection to each broker, which comes back by itself where one ends."""

    def __init__(self, run, number):
        self.run, self.rule = run, random.Random(f"worker {run.seed}/{number}")
        self.name = f"worker-{number}"
        self.maximum = self.rule.choice((1, 2, 8, 16))
        self.seconds = self.rule.choice((0, 0.002, 0.01))  # how long a job takes at most
        self.is_idle = False
        self.links = dict.fromkeys(run.brokers)
        self.comes_at = dict.fromkeys(run.brokers, 0)

    def act(self, now):
        for broker, link in self.links.items():
            if link is not None:
                link.act(now)
            elif now >= self.comes_at[broker] and not self.run.is_closing:
                self.links[broker] = WorkerLink(self.run, self, broker)

    def over(self, link):
        self.links[link.broker] = None
        self.comes_at[link.broker] = time.monotonic() + self.rule.uniform(0.1, 0.5)
