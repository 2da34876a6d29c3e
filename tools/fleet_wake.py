"""Measures the time from PUBLISH to delivery of jobs that come one at a time, from a connection of one worker to a member of another, and how they are spread over members."""
import os
import random
import select
import signal
import socket
import time

from frames import PINGREQ, Broker, connect, cut, disconnect, job_of, puback, publish, subscribe

STALL = 0.010
PATIENCE = 10
EACH = 8  # jobs for each member that acknowledges none
SLACK = 3  # by how many of them it may have more or fewer: workers tell one another what their members have, and a job may come before it is told


class Stalls:
    """Looks, by a process on each processor, when one stood still for over ten milliseconds: it was busy with other work, or the machine was."""

    def __init__(self):
        self.ends, self.children, parent = [], [], os.getpid()
        for processor in sorted(os.sched_getaffinity(0)):
            read, write = os.pipe()
            child = os.fork()
            if child == 0:
                os.sched_setaffinity(0, {processor})
                latest = time.monotonic()
                while os.getppid() == parent:
                    time.sleep(0.001)
                    now = time.monotonic()
                    if now - latest > STALL:
                        os.write(write, b"%f %f\n" % (latest, now))
                    latest = now
                os._exit(0)
            os.close(write)
            self.ends.append(read)
            self.children.append(child)

    def all(self):
        """Ends the processes, and returns the beginnings and ends of all stalls."""
        found = []
        for child, read in zip(self.children, self.ends):
            os.kill(child, signal.SIGKILL)
            os.waitpid(child, 0)
            with os.fdopen(read, "rb") as file:
                found += [tuple(map(float, line.split())) for line in file]
        return found


class Client:
    """A client that waits for what is to come."""

    def __init__(self, port, name, share=None, receive_maximum=0):
        self.name, self.input, self.packets = name, bytearray(), []
        self.socket = socket.create_connection(("127.0.0.1", port), PATIENCE)
        self.socket.setsockopt(socket.IPPROTO_TCP, socket.TCP_NODELAY, 1)
        self.socket.sendall(connect(name, receive_maximum=receive_maximum))
        self.wanted(0x20)
        if share:
            self.socket.sendall(subscribe(share))
            self.wanted(0x90)

    def next(self):
        """Returns the next packet."""
        while not self.packets:
            came = self.socket.recv(65_536)
            if not came:
                raise OSError(f"{self.name}: the stream ended")
            self.input += came
            self.packets = cut(self.input)
        return self.packets.pop(0)

    def wanted(self, first):
        found, body = self.next()
        if found != first:
            raise OSError(f"{self.name}: packet {found:#x}, expected {first:#x}")
        return body


class Wake:
    """The workers' connections, and the times so far."""

    def __init__(self, port, workers, rule):
        self.rule, self.workers, self.times = rule, workers, {}
        # who connects next comes to the worker that has the fewest connections, the first of them: so each kind has one at each worker, in order
        self.own = [Client(port, f"own{number}", f"$share/own{number}/own{number}") for number in range(min(workers, 4))]
        self.silent = [Client(port, f"silent{number}") for number in range(len(self.own), workers)]
        self.publishers = [Client(port, f"publisher{number}") for number in range(workers)]
        self.shared = [Client(port, f"shared{number}", "$share/shared/shared", receive_maximum=1) for number in range(workers)]
        self.port, self.number = port, 0
        self.held = {}  # of the members with Receive Maximum 1 that hold a job: its identifier

    def measure(self, what, start):
        self.times.setdefault(what, []).append((time.monotonic() - start, start))

    def publish(self, topic, publisher):
        self.number += 1
        publisher.socket.sendall(publish(topic, b"%d" % self.number, self.number % 65_535 + 1))

    def take(self, member):
        topic, identifier, payload = job_of(member.wanted(0x32))
        if payload != b"%d" % self.number:
            raise OSError(f"{member.name}: job {payload!r}, expected {self.number}")
        return identifier

    def to_its_own(self):
        """A job for a group whose one member is at another worker."""
        member = self.rule.randrange(len(self.own))
        publisher = self.rule.choice([number for number in range(self.workers) if number != member])
        start = time.monotonic()
        self.publish(f"own{member}", self.publishers[publisher])
        identifier = self.take(self.own[member])
        self.measure("a member alone", start)
        self.own[member].socket.sendall(puback(identifier))
        self.publishers[publisher].wanted(0x40)

    def next_of(self, members):
        ready = select.select([member.socket for member in members], [], [], PATIENCE)[0]
        for member in members:
            if member.socket in ready:
                return member
        raise OSError("a job came to no member within ten seconds")

    def to_the_free_one(self):
        """A job for a group with a member at each worker, of which one has room."""
        publisher = self.rule.choice(self.publishers)
        start = time.monotonic()
        self.publish("shared", publisher)
        member = self.next_of([member for member in self.shared if member not in self.held])
        self.held[member] = self.take(member)
        self.measure("one of several members has room", start)
        publisher.wanted(0x40)

    def make_room(self):
        """A member that is full acknowledges: nothing waits."""
        member = self.rule.choice(list(self.held))
        member.socket.sendall(puback(self.held.pop(member)))

    def waits_for_room(self):
        """A job that waits, since all members are full; one of them acknowledges, and is handed it."""
        publisher, member = self.rule.choice(self.publishers), self.rule.choice(list(self.held))
        self.publish("shared", publisher)
        publisher.wanted(0x40)
        start = time.monotonic()
        member.socket.sendall(puback(self.held[member]))
        self.held[member] = self.take(member)
        self.measure("a full member acknowledges", start)

    def comes_back(self):
        """A member leaves with a job in its hands, which goes to the one that has room."""
        place = self.rule.randrange(len(self.shared))
        leaver = self.shared[place]
        if leaver not in self.held or len(self.shared) < 2:
            return
        other = self.rule.choice([member for member in self.shared if member is not leaver])
        other.socket.sendall(puback(self.held.pop(other)) + PINGREQ)
        other.wanted(0xD0)
        start = time.monotonic()
        leaver.socket.sendall(disconnect())
        self.held[other] = job_of(other.wanted(0x32))[1]
        self.measure("a job of a member that left", start)
        self.held.pop(leaver)
        leaver.socket.close()
        self.shared[place] = Client(self.port, leaver.name, "$share/shared/shared", receive_maximum=1)
        self.fill()

    def fill(self):
        """Hands jobs out until all members are full."""
        while len(self.held) < len(self.shared):
            self.to_the_free_one()

    def turn(self, number):
        kind = number % 8
        if kind < 4:
            self.to_its_own()
        elif kind < 6:
            self.make_room()
            self.to_the_free_one()
        else:
            self.waits_for_room()
        if number % 100 == 0:
            self.comes_back()


def uneven(port, workers):
    """Publishes jobs one at a time to members that acknowledge none, twice as many as workers. Returns how many each of them has, where one has many more or fewer than its share."""
    members = [Client(port, f"even{number}", "$share/even/even") for number in range(2 * workers)]
    publisher, counts = Client(port, "publisher of even"), [0] * len(members)
    for number in range(EACH * len(members)):
        publisher.socket.sendall(publish("even", b"x", number + 1))
        publisher.wanted(0x40)
        # each worker makes a turn, and tells
        for _ in range(2):
            for place, member in enumerate(members):
                member.socket.sendall(PINGREQ)
                while member.next()[0] != 0xD0:
                    counts[place] += 1
    return counts if max(abs(count - EACH) for count in counts) > SLACK else None


def stood_in(stood, start, end):
    """Returns for how long processors stood still between two moments."""
    return sum(max(0, min(end, stop) - max(start, begin)) for begin, stop in stood)


def wake(program, jobs, latest):
    """Returns the status: 0 where every job came within so many seconds, and members that acknowledge none have about as many each."""
    wrong, all_times, stalls = 0, {}, Stalls()
    for workers in (2, 4, 8):
        broker = Broker(program, "--workers", str(workers))
        if not broker.listens():
            raise SystemExit(f"the broker's first line is {broker.first!r}")
        try:
            wakes = Wake(broker.port, workers, random.Random(f"wake {workers}"))
            wakes.fill()
            for number in range(jobs // 3):
                # mostly long enough for every worker to wait again, sometimes not
                time.sleep(wakes.rule.choice((0, 0, 0.0001, 0.0005)))
                wakes.turn(number)
            for what, times in wakes.times.items():
                all_times.setdefault(what, []).extend(times)
            counts = uneven(broker.port, workers)
            if counts:
                print(f"{workers} workers: of {sum(counts)} jobs members have {counts}")
            published = wakes.number + 2 * workers * EACH
            status, reports = broker.end()
            accepted = sum(report[0] for report in reports.values())
            print(f"{workers} workers: {published} jobs, status {status}, accepted {accepted}", flush=True)
            wrong += status != 0 or accepted != published or counts is not None
        finally:
            broker.process.kill()
    stood = stalls.all()
    for what, times in all_times.items():
        times.sort()
        late = [(start, start + took) for took, start in times if took > latest]
        beside = [one for one in late if one[1] - one[0] - stood_in(stood, *one) <= latest]
        wrong += len(late) > len(beside)
        micros = [took * 1e6 for took, _ in times]
        print(
            f"{what}: {len(micros)} jobs; microseconds: median {micros[len(micros) // 2]:.0f}, 99th percentile "
            f"{micros[-len(micros) // 100 - 1]:.0f}, longest {micros[-1]:.0f}; later than {latest * 1000:.0f} milliseconds: {len(late)}, "
            f"of which {len(beside)} not, without the time for which processors stood still"
        )
    print(f"{len(stood)} times a processor stood still for over 10 milliseconds")
    return 1 if wrong else 0
