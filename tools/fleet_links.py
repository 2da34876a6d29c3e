"""The clients of `tools/fleet` but for its members: what each connection has, publishers, and those that send noise."""
import collections
import random
import selectors
import socket
import struct
import time

from fleet_model import Fault, Job
from frames import PINGREQ, connect, cut, disconnect, puback, publish, subscribe


class Link:
    """A connection of the fleet."""

    def __init__(self, fleet, identity=None):
        self.fleet, self.identity, self.rule = fleet, identity, random.Random(f"{fleet.seed}/{fleet.count()}")
        self.socket = socket.socket()
        self.socket.setblocking(False)
        self.socket.connect_ex(("127.0.0.1", fleet.broker.port))
        self.input, self.output = bytearray(), bytearray()
        self.sent = 0  # bytes that the system took
        self.said = 0  # bytes that were to be sent
        self.reads, self.gone, self.joined = True, False, False
        self.opened = time.monotonic()
        self.dropped = None  # the moment at which it was dropped from here
        self.told = None  # the Reason Code of a DISCONNECT that came
        self.answers = collections.deque()  # which answers are due, in order
        self.slow = self.rule.random() < 0.2
        self.finishing = False
        fleet.selector.register(self.socket, selectors.EVENT_READ | selectors.EVENT_WRITE, self)
        fleet.links.append(self)

    def say(self, sent):
        self.output += sent
        self.said += len(sent)

    def watch(self):
        if self.gone:
            return
        events = (selectors.EVENT_READ if self.reads else 0) | (selectors.EVENT_WRITE if self.output or self.finishing else 0)
        if events:
            try:
                self.fleet.selector.modify(self.socket, events, self)
            except KeyError:
                self.fleet.selector.register(self.socket, events, self)
        else:
            try:
                self.fleet.selector.unregister(self.socket)
            except KeyError:
                pass

    def ready(self, events):
        if events & selectors.EVENT_WRITE:
            self.write()
        if events & selectors.EVENT_READ and not self.gone:
            self.read()
        if not self.gone:
            self.watch()

    def write(self):
        if self.output:
            piece = self.rule.randint(1, max(40, len(self.output) // 4)) if self.slow else len(self.output)
            try:
                count = self.socket.send(self.output[:piece])
            except BlockingIOError:
                return
            except OSError:
                self.output.clear()
                return
            self.sent += count
            del self.output[:count]
        if not self.output and self.finishing:
            self.finishing = False
            try:
                self.socket.shutdown(socket.SHUT_WR)
            except OSError:
                pass

    def read(self):
        for _ in range(8):
            try:
                came = self.socket.recv(65_536)
            except BlockingIOError:
                return
            except OSError:
                self.end(clean=False)
                return
            if not came:
                self.end(clean=True)
                return
            self.input += came
            for first, body in cut(self.input):
                self.hear(first, body)
            if self.gone:
                return

    def end(self, clean):
        """The stream ended: in an orderly way, or not."""
        self.close()
        self.dropped = None
        self.over(clean)

    def close(self, reset=False):
        if self.gone:
            return
        self.gone, self.dropped = True, time.monotonic()
        try:
            self.fleet.selector.unregister(self.socket)
        except KeyError:
            pass
        if reset:
            self.socket.setsockopt(socket.SOL_SOCKET, socket.SO_LINGER, struct.pack("ii", 1, 0))
        self.socket.close()
        self.fleet.links.remove(self)

    def hear(self, first, body):
        """A packet came."""
        if first == 0xE0:
            self.told = body[0] if body else 0

    def over(self, clean):
        """The connection is over. It was clean where everything that was sent to it was read."""

    def act(self):
        """Does one thing."""

    def is_settled(self):
        """Whether nothing is due."""
        return True

    def finish(self):
        """Sends what is left, and then ends its direction of the stream."""
        self.finishing = True
        self.watch()


class Publisher(Link):
    """A client that publishes jobs, each under an identifier of its own."""

    def __init__(self, fleet):
        super().__init__(fleet)
        self.name = f"p{fleet.total}"
        self.say(connect(self.name))
        self.jobs = 0
        self.left = self.rule.choice((3, 10, 30, 60, 200))
        self.window = self.rule.choice((1, 4, 16, 1_000))
        self.large = self.rule.random() < 0.1
        self.expires = self.rule.choice((0, 0, 0.3, 1))
        self.end_by = self.rule.choice(("disconnect", "disconnect", "fin", "cut", "cut" if fleet.orderly else "reset"))
        self.open = collections.deque()

    def act(self):
        if not self.joined or self.finishing or self.told is not None:
            return
        for _ in range(self.rule.choice((1, 2, 8, 64))):
            if self.left and len(self.open) < self.window and not self.finishing:
                self.publish_one()
        if not self.left and (not self.open or self.end_by in ("reset", "cut")):
            self.leave()

    def publish_one(self):
        group_topic = self.rule.choice(self.fleet.topics)
        self.jobs += 1
        self.left -= 1
        identifier = self.jobs % 65_535 + 1
        payload = f"{self.name} {self.jobs} ".encode()
        payload += b"x" * self.rule.choice((0, 1, 60, 5_000 if self.large else 7))
        interval = self.rule.choice((3_600, 2, 1, 0)) if self.rule.random() < self.expires else None
        sent = publish(group_topic, payload, identifier, interval)
        jobs = []
        for group in self.fleet.groups:
            if group.topic == group_topic:
                job = Job(payload, self.name, self.jobs, group_topic, len(sent), interval)
                group.jobs[payload] = job
                jobs.append(job)
        if self.end_by == "cut" and not self.left:
            # only a part of the last packet, which is not published then
            sent = sent[: self.rule.randrange(1, len(sent))]
            self.say(sent)
            for group in self.fleet.groups:
                if group.topic == group_topic:
                    group.jobs[payload].accepted = False
            return
        self.say(sent)
        self.open.append((identifier, jobs, self.said))
        self.fleet.published += 1

    def leave(self):
        if self.end_by == "reset" or self.end_by == "cut" and self.rule.random() < 0.5 and not self.fleet.orderly:
            self.forget()
            self.close(reset=True)
            return
        if self.end_by == "disconnect":
            self.say(disconnect())
        self.finish()

    def forget(self):
        """What was not even sent is not accepted; of what was sent and not answered nothing is known."""
        for _, jobs, until in self.open:
            for job in jobs:
                if until > self.sent:
                    job.accepted = False
        self.open.clear()

    def hear(self, first, body):
        super().hear(first, body)
        if first == 0x20:
            if body[1] != 0:
                raise Fault(f"{self.name}: CONNACK {body.hex()}")
            self.joined = True
        elif first == 0x40:
            self.hear_puback(body)
        elif first not in (0xE0, 0xD0):
            raise Fault(f"{self.name}: packet {first:#x}")

    def hear_puback(self, body):
        identifier, code = int.from_bytes(body[:2], "big"), body[2] if len(body) > 2 else 0
        if not self.open or self.open[0][0] != identifier:
            raise Fault(f"{self.name}: PUBACK of {identifier}, expected that of {self.open[0][0] if self.open else None}")
        _, jobs, _ = self.open.popleft()
        self.fleet.pubacks[code] += 1
        if code not in (0, 0x97) or not jobs and code != 0x10 and code != 0:
            raise Fault(f"{self.name}: PUBACK code {code:#x}")
        for job in jobs:
            if code == 0:
                job.accepted = True
                job.acknowledged_at = time.monotonic()
            elif len(jobs) == 1:
                if job.holder is not None:
                    raise Fault(f"{self.name}: {job.payload[:20]} was refused, and handed out")
                job.accepted = False

    def over(self, clean):
        self.forget()
        if self.told not in (None, 0x8B):
            raise Fault(f"{self.name}: was told {self.told:#x}")
        if not clean and not self.fleet.closing:
            raise Fault(f"{self.name}: its connection was reset")

    def is_settled(self):
        return not self.open and not self.output


class Noise(Link):
    """A client that sends what is no proper stream, or nothing, and goes, or stays."""

    def __init__(self, fleet):
        super().__init__(fleet)
        rule = self.rule
        name = f"n{fleet.total}"
        kind = rule.randrange(7)
        proper = connect(name) + subscribe("$share/nobody/reads") + publish("nobody", b"x" * 40, 9) + puback(1) + PINGREQ
        if kind == 0:
            self.say(b"GET / HTTP/1.1\r\nHost: x\r\n\r\n")
        elif kind == 1:
            self.say(rule.randbytes(rule.randint(1, 3_000)))
        elif kind == 2:
            self.say(connect(name) + rule.randbytes(rule.randint(1, 3_000)))
        elif kind == 3:
            self.say(proper[: rule.randrange(len(proper))])
        elif kind == 4:
            changed = bytearray(proper)
            changed[rule.randrange(len(changed))] ^= 1 << rule.randrange(8)
            self.say(bytes(changed))
        elif kind == 5:
            # a header that announces more than may be, or as much as may be and then little of it
            self.say(connect(name) + b"\x32" + rule.choice((b"\xff\xff\xff\x7f", b"\xfd\xff\x03", b"\x80\x80\x80\x80\x01")) + b"\x00\x01a")
        self.acts = rule.randint(1, 40)
        self.joined = True
        self.reads = rule.random() < 0.7
        fleet.noises += 1

    def act(self):
        self.acts -= 1
        if self.acts <= 0:
            self.close(reset=self.rule.random() < 0.5)
