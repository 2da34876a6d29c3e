"""The cases of tools/real-clients that run examples/clients: the very files that docs/CLIENTS.md shows, a worker and a publisher in each language.

Each case has a broker of its own. Those in JavaScript are left out where `node` or the module `mqtt` is not found (Debian: apt-get install -y node-mqtt, or
`npm install mqtt`), and those in C where `gcc` or paho's library is not (apt-get install -y gcc libpaho-mqtt-dev).
"""
import contextlib
import os
import re
import shutil
import socket
import subprocess
import threading
import time
from pathlib import Path

CLIENTS = Path(__file__).resolve().parents[1] / "examples" / "clients"
PATIENCE = 20
REPORT = re.compile(r"(\$share/\S+) accepted (\d+) acknowledged (\d+) refused (\d+) held (\d+) queued (\d+) returned (\d+) discarded (\d+)")


class Language:
    """How the worker and the publisher of a language are called."""

    def __init__(self, name, worker, publisher, environment=None):
        self.name = name
        self.worker = worker
        self.publisher = publisher
        self.environment = {**os.environ, **(environment or {})}

    def work(self, port):
        """Starts a worker, of the same name each time."""
        words = [*self.worker, "127.0.0.1", str(port), "worker"]
        return subprocess.Popen(words, env=self.environment, stdout=subprocess.PIPE, stderr=subprocess.DEVNULL)

    def publish(self, port, *jobs):
        """Publishes jobs, and returns the lines that say what the broker answered, and the status."""
        words = [*self.publisher, "127.0.0.1", str(port), *jobs]
        done = subprocess.run(words, env=self.environment, capture_output=True, text=True, timeout=PATIENCE)
        return done.stdout.splitlines(), done.returncode


class WorkerOfBrokers(Language):
    """The worker for several brokers: it is called with the ports of all of them."""

    def work(self, ports):
        words = [*self.worker, "worker", *(f"127.0.0.1:{port}" for port in ports)]
        return subprocess.Popen(words, env=self.environment, stdout=subprocess.PIPE, stderr=subprocess.DEVNULL)


class Lines:
    """What a worker prints."""

    def __init__(self, process):
        self.process = process
        self.lines = []
        self.reader = threading.Thread(target=self.read, daemon=True)
        self.reader.start()

    def read(self):
        for line in self.process.stdout:
            self.lines.append(line.decode().rstrip("\n"))

    def until(self, line):
        """Waits for a line, and returns the jobs that are done by then."""
        until = time.monotonic() + PATIENCE
        while line not in self.lines and time.monotonic() < until:
            time.sleep(0.02)
        return [line.removeprefix("done ") for line in self.lines if line.startswith("done ")]


class Relay:
    """Passes connections on to a port, until it is cut; then it takes none before it is mended."""

    def __init__(self, port):
        self.port_behind = port
        self.streams = []
        self.listener = socket.create_server(("127.0.0.1", 0))
        self.port = self.listener.getsockname()[1]
        self.is_cut = False
        threading.Thread(target=self.accept, daemon=True).start()

    def accept(self):
        with contextlib.suppress(OSError):
            while True:
                front, _ = self.listener.accept()
                if self.is_cut:
                    front.close()
                    continue
                try:
                    back = socket.create_connection(("127.0.0.1", self.port_behind))
                except OSError:
                    front.close()
                    continue
                self.streams += [front, back]
                for ends in ((front, back), (back, front)):
                    threading.Thread(target=self.pump, args=ends, daemon=True).start()

    @staticmethod
    def pump(source, target):
        with contextlib.suppress(OSError):
            while part := source.recv(4096):
                target.sendall(part)
            target.shutdown(socket.SHUT_RDWR)

    def cut(self):
        self.is_cut = True
        for stream in self.streams:
            with contextlib.suppress(OSError):
                stream.shutdown(socket.SHUT_RDWR)

    def mend(self):
        self.is_cut = False


def joined(language, port):
    """Publishes a job until a group takes it."""
    until = time.monotonic() + PATIENCE
    while language.publish(port, "first") != (["0x00 first"], 0) and time.monotonic() < until:
        time.sleep(0.1)


class Case:
    """A case of a language: its brokers, of which it names the latest, and its workers, which end with it."""

    def __init__(self, start, expect, is_profile):
        self.start = start
        self.expect = expect
        self.is_profile = is_profile
        self.broker = None
        self.brokers = []
        self.workers = []

    def open(self, *words):
        """Starts a broker, and returns its port."""
        self.broker = self.start(words)
        self.brokers.append(self.broker)
        return self.broker.port

    def work(self, language, port):
        """Starts a worker, and returns what it prints."""
        self.workers.append(language.work(port))
        return Lines(self.workers[-1])

    def reports(self, *wanted):
        """Ends the broker, a moment after the last job, and compares the reports of its groups, but for mosquitto, which has none."""
        time.sleep(0.5)
        printed, _ = self.broker.end()
        if self.is_profile:
            found = [tuple(map(int, line.groups()[1:])) for line in REPORT.finditer(printed)]
            self.expect("accepted, acknowledged, refused, held, queued, returned, discarded", found, [*wanted])

    def close(self):
        for process in self.workers:
            process.kill()
            process.wait(PATIENCE)
        for broker in self.brokers:
            broker.process.kill()
            broker.process.wait(PATIENCE)


def does_each(case, language):
    port = case.open()
    worker = case.work(language, port)
    joined(language, port)
    case.expect("what the publisher saw", language.publish(port, "a", "b", "c"), (["0x00 a", "0x00 b", "0x00 c"], 0))
    case.expect("what the worker did", worker.until("done c"), ["first", "a", "b", "c"])
    case.reports((4, 4, 0, 0, 0, 0, 0))


def dies_with_a_job(case, language):
    port = case.open()
    worker = case.work(language, port)
    joined(language, port)
    case.expect("what the publisher saw", language.publish(port, "a", "b"), (["0x00 a", "0x00 b"], 0))
    case.expect("what the worker did", worker.until("begins a"), ["first"])
    worker.process.kill()
    worker.process.wait(PATIENCE)
    case.expect("what the next worker of its name did", case.work(language, port).until("done b"), ["a", "b"])
    case.reports((3, 3, 0, 0, 0, 0, 0))


def network_parts(case, language):
    port = case.open()
    relay = Relay(port)
    worker = case.work(language, relay.port)
    joined(language, port)
    case.expect("what the worker did", worker.until("done first"), ["first"])
    # time for its PUBACK
    time.sleep(0.5)
    relay.cut()
    case.expect("what the publisher saw", language.publish(port, "a", "b"), (["0x00 a", "0x00 b"], 0))
    time.sleep(1)
    relay.mend()
    case.expect("what the worker did", worker.until("done b"), ["first", "a", "b"])
    case.reports((3, 3, 0, 0, 0, 0, 0))


def starts_anew(case, language):
    port = case.open("--group", "workers:jobs")
    relay = Relay(port)
    worker = case.work(language, relay.port)
    joined(language, port)
    case.expect("what the worker did", worker.until("done first"), ["first"])
    # time for its PUBACK; then the broker is ended by its input, of which it tells its clients
    time.sleep(0.5)
    case.broker.end()
    relay.port_behind = case.open("--group", "workers:jobs")
    joined(language, relay.port_behind)
    case.expect("what the publisher saw", language.publish(relay.port_behind, "a"), (["0x00 a"], 0))
    case.expect("what the worker did", worker.until("done a"), ["first", "first", "a"])
    case.reports((2, 2, 0, 0, 0, 0, 0))


def no_group(case, language):
    port = case.open()
    case.expect("what the publisher saw", language.publish(port, "a", "b"), (["0x10 a"], 1))
    printed, _ = case.broker.end()
    if case.is_profile:
        case.expect("the reports", printed, "")


def queue_full(case, language):
    port = case.open("--capacity", "1", "--group", "workers:jobs")
    found = {}
    publishing = threading.Thread(target=lambda: found.update(seen=language.publish(port, "a", "b")))
    publishing.start()
    time.sleep(2)
    worker = case.work(language, port)
    publishing.join(2 * PATIENCE)
    lines, status = found["seen"]
    case.expect("the first and the last answers", (lines[:2], lines[-1], status), (["0x00 a", "0x97 b"], "0x00 b", 0))
    case.expect("what the worker did", worker.until("done b"), ["a", "b"])
    case.reports((2, 2, 0, 0, 0, 0, 0))


def passes_on(case, language):
    port = case.open("--group", "workers:jobs", "--group", "failures:failed")
    worker = case.work(Language("", [CLIENTS / "python" / "worker_passing_on.py"], []), port)
    joined(language, port)
    case.expect("what the publisher saw", language.publish(port, "bad", "7"), (["0x00 bad", "0x00 7"], 0))
    case.expect("what the worker did", worker.until("done 7"), ["7"])
    done = subprocess.run(
        ["mosquitto_sub", "-p", str(port), "-V", "5", "-q", "1", "-t", "$share/failures/failed", "-F", "%p %P", "-C", "2", "-W", str(PATIENCE)],
        capture_output=True, text=True, timeout=2 * PATIENCE,
    )
    why = "fault:invalid literal for int() with base 10: b"
    case.expect("what it passed on", done.stdout.splitlines(), [f"first {why}'first'", f"bad {why}'bad'"])
    case.reports((3, 3, 0, 0, 0, 0, 0), (2, 2, 0, 0, 0, 0, 0))


def works_for_two(case, language):
    first, second = (case.open("--group", "workers:jobs") for _ in range(2))
    relays = [Relay(first), Relay(second)]
    worker = case.work(WorkerOfBrokers("", [CLIENTS / "python" / "worker_of_brokers.py"], []), [relay.port for relay in relays])
    case.expect("what the publishers saw", language.publish(first, "a") + language.publish(second, "b"), (["0x00 a"], 0, ["0x00 b"], 0))
    worker.until("done a")
    case.expect("what the worker did", sorted(worker.until("done b")), ["a", "b"])
    # time for its PUBACK; then one broker is killed, and the worker goes on with the other
    time.sleep(0.5)
    case.brokers[0].process.kill()
    case.brokers[0].process.wait(PATIENCE)
    case.expect("what the publisher saw", language.publish(second, "c"), (["0x00 c"], 0))
    case.expect("what the worker did", sorted(worker.until("done c")), ["a", "b", "c"])
    relays[0].port_behind = case.open("--group", "workers:jobs")
    case.expect("what the publisher saw", language.publish(case.broker.port, "d"), (["0x00 d"], 0))
    case.expect("what the worker did", sorted(worker.until("done d")), ["a", "b", "c", "d"])
    case.reports((1, 1, 0, 0, 0, 0, 0))
    case.broker = case.brokers[1]
    case.reports((2, 2, 0, 0, 0, 0, 0))


def is_no_member_of_one(case, _language):
    groups = [word for number in range(8) for word in ("--group", f"others:{number}")]
    ports = [case.open(), case.open(*groups)]
    worker = case.work(WorkerOfBrokers("", [CLIENTS / "python" / "worker_of_brokers.py"], []), ports)
    case.expect("whether it ends with 1", worker.process.wait(PATIENCE), 1)


def no_member(case, language):
    groups = [word for number in range(8) for word in ("--group", f"others:{number}")]
    worker = case.work(language, case.open(*groups))
    case.expect("whether it ends with 1", worker.process.wait(PATIENCE), 1)


def refuses(case, language):
    port = case.open()
    worker = case.work(language, port)
    joined(language, port)
    language.publish(port, "bad", "good")
    case.expect("what the worker did", worker.until("done good"), ["first", "good"])
    case.reports((3, 2, 1, 0, 0, 0, 0))


# What each case is, whether it is one for mosquitto too, and of which languages.
CASES = (
    ("its worker does each job of its publisher, in order", does_each, True, ("Python", "JavaScript", "C")),
    ("a job that its worker has in hand when it is killed comes again, to the next of its name", dies_with_a_job, True, ("Python", "JavaScript", "C")),
    ("its worker connects again where the network parts, and does what came meanwhile", network_parts, True, ("Python", "JavaScript", "C")),
    ("its worker joins again where the broker ended and was started anew", starts_anew, False, ("Python", "JavaScript", "C")),
    ("its publisher is told 0x10 where there is no group, and ends with 1", no_group, True, ("Python", "JavaScript", "C")),
    ("its publisher is told 0x97 while the queue is full, and tries again", queue_full, False, ("Python", "JavaScript", "C")),
    ("its worker ends where its SUBSCRIBE is refused, since there are eight other groups", no_member, False, ("Python", "JavaScript", "C")),
    ("its worker refuses a job that it cannot do, and it does not come again", refuses, False, ("JavaScript",)),
    ("a worker passes on what it cannot do to a second group", passes_on, False, ("Python",)),
    ("a worker of two brokers works for one while the other is away, and comes back to that", works_for_two, False, ("Python",)),
    ("a worker of two brokers ends where one of them refuses its SUBSCRIBE", is_no_member_of_one, False, ("Python",)),
)


def python(_room):
    """Debian's packages belong to /usr/bin/python3, which the files name themselves."""
    return Language("Python", [CLIENTS / "python" / "worker.py"], [CLIENTS / "python" / "publisher.py"])


def javascript(_room):
    node = shutil.which("node")
    if not node:
        return "there is no node"
    for path in filter(None, (os.environ.get("NODE_PATH"), "/usr/share/nodejs")):
        environment = {"NODE_PATH": path}
        if not subprocess.run([node, "-e", "require('mqtt')"], env={**os.environ, **environment}, capture_output=True, timeout=PATIENCE).returncode:
            folder = CLIENTS / "javascript"
            return Language("JavaScript", [node, folder / "worker.js"], [node, folder / "publisher.js"], environment)
    return "node does not find the module mqtt, also not by NODE_PATH"


def c(room):
    if not shutil.which("gcc"):
        return "there is no gcc"
    for name, library in (("worker", "paho-mqtt3a"), ("publisher", "paho-mqtt3c")):
        words = ["gcc", "-Wall", CLIENTS / "c" / f"{name}.c", "-o", f"{room}/{name}", f"-l{library}"]
        done = subprocess.run(words, capture_output=True, text=True, timeout=6 * PATIENCE)
        if done.returncode:
            return f"gcc makes no {name} with -l{library}"
    return Language("C", [f"{room}/worker"], [f"{room}/publisher"])


def shown(expect):
    """Expects that docs/CLIENTS.md and docs/OPERATING.md have each file as it is."""
    guide = "".join(page.read_text(encoding="utf-8") for page in (CLIENTS.parents[1] / "docs").glob("[CO][LP]*.md"))
    for file in sorted(CLIENTS.glob("*/*")):
        expect(f"whether the guide shows {file.name} of {file.parent.name}", file.read_text(encoding="utf-8") in guide, True)


def run(tally, room, start, expect, is_profile):
    """Runs the cases; `start` makes a broker of further words, and `expect` compares."""
    tally.run("docs/CLIENTS.md shows the files of examples/clients as they are", lambda: shown(expect))
    for name, find in (("Python", python), ("JavaScript", javascript), ("C", c)):
        language = find(room)
        if isinstance(language, str):
            print(f"left out: the clients in {name}, since {language}", flush=True)
            continue
        for title, function, everywhere, languages in CASES:
            if name in languages and (everywhere or is_profile):
                case = Case(start, expect, is_profile)
                try:
                    tally.run(f"{name}: {title}", lambda: function(case, language))
                finally:
                    case.close()
