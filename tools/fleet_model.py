"""What the clients of `tools/fleet` know of groups, jobs and sessions."""
import collections
import time

from frames import length


LEAST_MAXIMUM = 64  # the least Maximum Packet Size that the broker takes
CLOCKS = 0.5  # seconds by which a moment of the broker may be before that of the clients: a worker reads its clock once a turn, before it reads what came


class Fault(Exception):
    """The broker did what it is not to do."""


class Group:
    """A share, and what was seen of its jobs."""

    def __init__(self, name, topic, calm):
        self.share, self.topic, self.calm = f"$share/{name}/{topic}", topic, calm
        self.jobs = {}  # by payload
        self.hidden = 0  # how many deliveries dropped connections may have hidden
        self.turned = {}  # jobs whose first delivery came behind a later job of their publisher
        self.last = {}  # by session and publisher, the number of the latest first delivery
        self.sessions = 0  # how many sessions were a member of it
        self.least = float("inf")  # the bytes of the longest PUBLISH, without a Subscription Identifier, that each connection of its members takes
        self.reached = {}  # by publisher, the number of the latest job that a member had


class Job:
    """A job in one group, and what was seen of it."""

    def __init__(self, payload, publisher, number, topic, size, interval):
        self.payload, self.publisher, self.number, self.topic = payload, publisher, number, topic
        self.size = size  # the bytes of its PUBLISH
        self.interval = interval  # its Message Expiry Interval, in seconds, or None
        self.sent_at = time.monotonic()
        self.acknowledged_at = None  # the moment at which its PUBACK was read, where it was
        self.accepted = None  # None while it is open
        self.holder = None  # the session that it was last seen at
        self.code = None  # the Reason Code of the PUBACK that its holder sent
        self.codes = set()  # the fates of all PUBACK packets that were sent for it
        self.sure = False  # whether that PUBACK was surely read
        self.seen = set()  # the sessions that it was seen at
        self.vague = False  # whether it was seen at two sessions, and not which of them came later

    def fates(self, group):
        """Returns the fates that it may have, where it was accepted."""
        if self.sure:
            return {fate_of(self.code)}
        if self.interval == 0 and self.number < group.reached.get(self.publisher, 0):
            # its turn came before that of a later job, and it had expired at once
            return {"discarded"}
        unseen = {"held", "returned"} if group.hidden else set()
        if self.may_be_discarded(group):
            unseen.add("discarded")
        if self.vague:
            held = {"held"} if any(session.ended != "surely" for session in self.seen) else set()
            back = {"returned"} | unseen if all(session.ended != "not" for session in self.seen) else set()
            return self.codes | held | back
        if self.holder is None:
            return {"queued"} | unseen
        found = set()
        if self.holder.ended != "surely":
            found.add("held")
        if self.holder.ended != "not":
            found |= {"returned"} | unseen
        if self.code is not None:
            found.add(fate_of(self.code))
        return found

    def may_be_discarded(self, group):
        """Whether it may have expired, or may have been handed to a member that it is too long for: which member had its turn nobody sees."""
        return self.size > group.least or self.interval is not None and self.waited() >= self.interval - CLOCKS

    def waited(self):
        """How many seconds it has waited at most."""
        return time.monotonic() - self.sent_at

    def fault_of(self, left, fresh, opened):
        """What is wrong with the Message Expiry Interval with which it came on a connection that was opened at that moment; None where nothing is."""
        if left is None or self.interval is None:
            return None if left is self.interval else f"interval {left}, published with {self.interval}"
        if fresh and not left:
            return "fresh, and it has expired"
        least = max(0, self.interval - int(self.waited() + CLOCKS))
        # it was accepted before its PUBACK was read, and is handed out after the connection was opened
        passed = 0 if self.acknowledged_at is None else max(0, int(opened - self.acknowledged_at - CLOCKS))
        most = max(0, self.interval - passed)
        return None if least <= left <= most else f"interval {left}, expected {least} to {most}"


def fate_of(code):
    return "acknowledged" if code < 0x80 else "refused"


class Session:
    """A session as its client knows it: what it was handed and is not surely acknowledged, by identifier, in order."""

    def __init__(self, name, expiry):
        self.name = name
        self.expiry, self.group, self.held, self.ended = expiry, None, {}, "not"
        self.left = False  # whether it was told that it is no member any more
        self.in_order = True  # whether the order of what it holds is known

    def may_have_ended(self):
        if self.ended == "not":
            self.ended = "maybe"


class Identity:
    """A client identifier, with its session as it is known, its open connections, and all that it ever had. One that is hasty connects again while it
    waits for a CONNACK; of its sessions nothing is known."""

    def __init__(self, name, hasty=False, subscription=0):
        self.name, self.hasty, self.session, self.open, self.links = name, hasty, None, [], []
        self.subscription = subscription  # the Subscription Identifier of each of its SUBSCRIBE packets, or 0
        self.under = b"\x0b" + length(subscription) if subscription else b""  # the property of it, in what it is sent
        self.takes = 0  # the Maximum Packet Size of those of its connections that name one
        self.log = collections.deque(maxlen=200)

    def note(self, link, what):
        self.log.append(f"{time.monotonic():.4f} connection {self.links.index(link)} {what}")

    def is_ready(self):
        """Whether it may connect again: not while the system may still turn two CONNECT packets round."""
        return self.hasty or all(link.joined for link in self.open)
