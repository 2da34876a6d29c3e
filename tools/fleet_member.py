"""The members of `tools/fleet`: what each of their connections may see, and what it does."""
import collections
import time

from fleet_links import Link
from fleet_model import Fault, Session, fate_of
from frames import PINGREQ, connect, disconnect, job_of, packet, puback, split_properties, subscribe, unsubscribe

PLACES = 32
NOTICED = 1  # after how many seconds the broker has surely noticed that a connection was dropped


class Member(Link):
    """A client that subscribes to a share, and acknowledges what it is handed."""

    def __init__(self, fleet, identity, group, again=False):
        super().__init__(fleet, identity)
        rule = self.rule
        self.group, self.hasty = group, identity.hasty
        self.clean = rule.random() < (0.25 if again else 0.5)
        self.expiry = rule.choice((0, 3_600, 3_600))
        self.maximum = rule.choice((1, 2, 3, 8, 256, 0))
        self.takes = identity.takes if rule.random() < 0.7 else 0  # its Maximum Packet Size, where it names one
        self.manner = rule.choice(("first", "first", "any", "late", "all", "never"))
        self.refuses = rule.choice((0, 0, 0.1, 0.5))
        self.leaves = rule.choice(("disconnect", "disconnect", "expire", "fin", "drop", "takeover", "stay"))
        if group.calm and self.leaves == "drop":
            self.leaves = "fin"
        self.acts = rule.choice((4, 10, 30, 60))
        self.session, self.resumed, self.asked, self.subscribed, self.unsubscribing, self.left_by = None, False, False, False, False, None
        self.window = {}  # identifier to job: sent on this connection and not acknowledged
        self.again = []  # the identifiers of what is surely to be sent again, oldest first
        self.settled = []  # PUBACK packets that were sent, and not surely read: job, and the bytes up to their end
        self.unsubacks = 0  # how many UNSUBACK packets are to come
        self.marks = collections.deque()  # PINGREQ packets without an answer: how many PUBACK packets stood before each
        self.older = list(identity.open)
        identity.open.append(self)
        identity.links.append(self)
        if self.hasty:
            group.hidden += self.limit()
        for link in self.older:
            link.left_by = link.left_by or "takeover"
        old = identity.session
        if old is not None and (self.clean or old.expiry == 0):
            old.may_have_ended()
        self.say(connect(identity.name, self.clean, self.expiry, self.maximum, maximum_packet_size=self.takes))
        identity.note(self, f"connects, Clean Start {self.clean}, expiry {self.expiry}, Receive Maximum {self.maximum}, Maximum Packet Size {self.takes}")

    def limit(self):
        return min(self.maximum or 65_535, 256)

    def read(self):
        """Reads older connections to their end first, since what came on them is older."""
        waits = [link for link in self.older if not link.gone]
        if waits and not self.hasty:
            for link in waits:
                link.reads = True
                link.watch()
            return
        super().read()

    def hear(self, first, body):
        super().hear(first, body)
        kind = first & 0xF0
        self.identity.note(self, f"reads {first:02x} {body[:40].hex()}")
        if kind == 0x20:
            self.hear_connack(body)
        elif kind == 0x90:
            self.hear_suback(body)
        elif kind == 0x30:
            self.hear_job(first, body)
        elif kind == 0xD0:
            self.confirm(self.marks.popleft())
        elif kind == 0xB0:
            self.hear_unsuback(body)
        elif kind != 0xE0:
            raise Fault(f"{self.identity.name}: packet {first:#x}")

    def hear_connack(self, body):
        present, code = body[0], body[1]
        name, old = self.identity.name, self.identity.session
        if code == 0x89:
            self.fleet.busy += 1
            if not self.older and not self.hasty and not self.follows_dropped():
                raise Fault(f"{name}: CONNACK 89 with no other connection of it")
            return
        if code == 0x83:
            self.fleet.not_resumed += 1
            if not self.may_hold_too_long(old):
                raise Fault(f"{name}: CONNACK 83 with Maximum Packet Size {self.takes}, and its session holds no longer packet")
            self.left_by = "too long"
            self.fleet.later(self.identity, self.group)
            return
        if code:
            raise Fault(f"{name}: CONNACK {body.hex()}")
        self.joined = True
        if self.takes:
            self.group.least = min(self.group.least, self.takes - len(self.identity.under))
        if present and self.clean:
            raise Fault(f"{name}: Session Present 1 after Clean Start")
        if self.hasty:
            self.session = Session(name, self.expiry)
            self.session.ended = "maybe"
            self.resumed = present
        elif present:
            if old is None or old.ended == "surely":
                raise Fault(f"{name}: Session Present 1, and it has no session")
            old.ended, old.expiry = "not", self.expiry
            self.session, self.resumed = old, True
            self.again = [identifier for identifier, job in old.held.items() if job.code is None and not job.vague]
        else:
            if old is not None:
                if not self.clean and old.ended == "not" and old.expiry:
                    raise Fault(f"{name}: Session Present 0, and its session goes on")
                old.ended = "surely"
            self.session = self.identity.session = Session(name, self.expiry)
        self.fleet.resumed += present
        place = self.identity.links.index(self)
        if any(link.clean or not self.expiry for link in self.identity.links[place + 1 :]):
            self.session.may_have_ended()

    def may_hold_too_long(self, session):
        """Whether the session may hold a PUBLISH that is longer than this connection takes, so that it is not given to it."""
        if not self.takes or self.clean:
            return False
        if self.hasty:
            return True
        if session is None or session.ended == "surely":
            return False
        return self.group.hidden > 0 or any(job.size + len(self.identity.under) > self.takes for job in session.held.values())

    def follows_dropped(self):
        """Whether another connection of the client was dropped so lately that the broker may not have noticed: then one of them may still wait for the session."""
        return any(link.dropped is not None and time.monotonic() - link.dropped < NOTICED for link in self.identity.links if link is not self)

    def hear_suback(self, body):
        code, group = body[-1], self.group
        if code == 0x97:
            self.fleet.full += 1
            if self.session.group in (None, group) and group.sessions < PLACES:
                raise Fault(f"{self.identity.name}: SUBACK 97 with {group.sessions} sessions in {group.share}")
            self.leaves = "disconnect"
        elif code == 1:
            self.subscribed = True
        else:
            raise Fault(f"{self.identity.name}: SUBACK {body.hex()}")

    def hear_unsuback(self, body):
        if body[-1] not in (0, 0x11):
            raise Fault(f"{self.identity.name}: UNSUBACK {body.hex()}")
        self.subscribed = False
        self.unsubacks -= 1
        self.session.left = self.unsubscribing and self.unsubacks == 0

    def hear_job(self, first, body):
        topic, identifier, payload = job_of(body)
        name, session, group = self.identity.name, self.session, self.group
        if session is None or first not in (0x32, 0x3A):
            raise Fault(f"{name}: packet {first:#x}, and no session")
        job = group.jobs.get(payload)
        where = f"{name} in {group.share}, job {payload[:24]!r} under {identifier}, first byte {first:#x}"
        if job is None or job.topic != topic:
            raise Fault(f"{where}: nobody published it there")
        if job.accepted is False:
            raise Fault(f"{where}: it was not accepted")
        if not 1 <= identifier <= 256:
            raise Fault(f"{where}: identifier")
        if identifier in self.window:
            raise Fault(f"{where}: the identifier is in use")
        size = len(packet(first, body))
        if self.takes and size > self.takes:
            raise Fault(f"{where}: {size} bytes, Maximum Packet Size {self.takes}")
        interval, others = split_properties(body)
        if others != self.identity.under:
            raise Fault(f"{where}: properties {others.hex()}, and it subscribed under {self.identity.subscription}")
        fault = job.fault_of(interval, first == 0x32, self.opened)
        if fault is not None:
            raise Fault(f"{where}: {fault}")
        group.reached[job.publisher] = max(group.reached.get(job.publisher, 0), job.number)
        self.window[identifier] = job
        if len(self.window) > self.limit():
            raise Fault(f"{where}: {len(self.window)} unacknowledged, Receive Maximum {self.maximum}")
        self.fleet.most = max(self.fleet.most, len(self.window))
        self.fleet.delivered += 1
        job.accepted = True
        job.seen.add(session)
        if first == 0x3A and not self.resumed:
            raise Fault(f"{where}: sent again on a connection that resumed nothing")
        if self.hasty:
            job.vague = True
            job.holder = job.holder or session
            return
        late = session.ended != "not" and job.holder not in (None, session)
        if job.sure and not late:
            raise Fault(f"{where}: it was settled with {job.code:#x}")
        if first == 0x3A:
            self.hear_again(job, identifier, where, late)
        else:
            self.hear_fresh(job, identifier, where, late)
        session.held[identifier] = job
        if late:
            group.turned.pop(job, None)
            # it may be older than what was seen at the other session
            job.vague = True
            return
        job.holder, job.code = session, None

    def hear_again(self, job, identifier, where, late):
        self.fleet.again += 1
        session = self.session
        known = session.held.get(identifier)
        if known is not None and known is not job and known.code is None and not known.vague:
            raise Fault(f"{where}: {known.payload[:24]!r} was sent under it")
        if identifier in self.again:
            if self.again[0] != identifier and session.in_order:
                raise Fault(f"{where}: {self.again[0]} is older")
            self.again.remove(identifier)
        elif known is job and job.code is None and not job.vague and not late:
            raise Fault(f"{where}: sent again twice")
        elif known is not job:
            session.in_order = False
            if not self.group.hidden:
                raise Fault(f"{where}: sent again, and it was never sent to this session")
        if job.holder not in (None, session) and job.holder.ended == "not" and not late:
            raise Fault(f"{where}: another session has it")

    def hear_fresh(self, job, identifier, where, late):
        session, group = self.session, self.group
        if self.again:
            raise Fault(f"{where}: fresh, and {self.again} wait to be sent again")
        if session.left:
            raise Fault(f"{where}: fresh, behind an UNSUBACK")
        known = session.held.pop(identifier, None)
        if known is not None and not known.vague:
            if known.code is None:
                raise Fault(f"{where}: {known.payload[:24]!r} has the identifier")
            # the identifier is free again: the PUBACK was read
            if known.holder is session:
                self.make_sure(known)
        if job.holder is not None:
            self.fleet.handed_back += 1
            if job.holder.ended == "not" and not late and not job.vague:
                raise Fault(f"{where}: handed out again, and its session goes on")
            return
        order = group.last.setdefault(session, {})
        if order.get(job.publisher, 0) < job.number:
            order[job.publisher] = job.number
            return
        # it may have been handed out before, to a session that has ended and whose connection is still to be read
        group.turned[job] = f"{where}, behind {order[job.publisher]}"

    def make_sure(self, job):
        job.sure = True
        for identifier, held in list(job.holder.held.items()):
            if held is job:
                del job.holder.held[identifier]

    def settle(self, identifier, code=0):
        job = self.window.pop(identifier)
        self.identity.note(self, f"settles {identifier} with {code:#x}")
        self.say(puback(identifier, code))
        job.codes.add(fate_of(code))
        if job.holder is self.session:
            job.code = code
            if not self.hasty:
                self.settled.append((job, self.said))
        self.fleet.refused += code >= 0x80

    def ping(self):
        self.marks.append(len(self.settled))
        self.say(PINGREQ)

    def confirm(self, count):
        """The first so many PUBACK packets of this connection were read."""
        for place in range(count):
            entry = self.settled[place]
            if entry is not None:
                job = entry[0]
                if job.holder is self.session and job.code is not None and not job.vague:
                    self.make_sure(job)
                self.settled[place] = None

    def subscribe(self):
        self.asked, self.unsubscribing = True, False
        self.session.left = False
        if self.session.group is None:
            self.session.group = self.group
            self.group.sessions += 1
        self.say(subscribe(self.group.share, subscription=self.identity.subscription))

    def act(self):
        if self.finishing or self.told is not None or not self.joined:
            return
        rule = self.rule
        if not self.asked and self.acts > 0 and (self.session.group is None or rule.random() < 0.1):
            self.subscribe()
        if self.acts > 0:
            self.acknowledge()
        if rule.random() < 0.15 and self.acts > 0:
            self.ping()
        if rule.random() < 0.02 and self.acts > 0:
            self.say(puback(rule.randrange(300, 60_000), rule.choice((0, 0x80))))
        if rule.random() < 0.03:
            self.reads = not self.reads
        if rule.random() < 0.02 and self.subscribed and self.acts > 0:
            self.say(unsubscribe(self.group.share))
            self.asked, self.unsubscribing = rule.random() < 0.3, True
            self.unsubacks += 1
        self.acts -= 1
        if self.acts <= 0:
            self.leave()
        self.watch()

    def is_silent(self):
        """Whether all that it sent was answered, and it sends nothing more for now."""
        return not self.marks and not self.output and all(entry is None for entry in self.settled) and not self.asked_now()

    def asked_now(self):
        return self.asked and not self.subscribed and not self.unsubscribing

    def acknowledge(self):
        rule, waiting = self.rule, list(self.window)
        if not waiting or self.manner == "never" or self.manner == "late" and rule.random() < 0.8:
            return
        if self.manner == "any":
            rule.shuffle(waiting)
            waiting = waiting[: rule.randint(1, 3)]
        elif self.manner == "first":
            waiting = waiting[: rule.randint(1, 4)]
        for identifier in waiting:
            refuses = rule.random() < self.refuses
            self.settle(identifier, rule.choice((0x80, 0x83, 0x97, 0xFF)) if refuses else rule.choice((0, 0, 0x10)))

    def leave(self):
        manner = self.leaves
        self.reads = True
        if manner == "stay":
            self.acts = 50
            self.leaves = self.rule.choice(("disconnect", "fin", "stay"))
            return
        if manner == "takeover":
            self.acts = 0
            if self.group.calm and not self.is_silent():
                # what a connection had not read when it is taken over it loses, and its end is not orderly then
                if not self.marks:
                    self.ping()
                return
            if self.identity.is_ready():
                self.acts = 10_000
                self.left_by = self.left_by or manner
                for _ in range(self.rule.randint(1, 3) if self.hasty else 1):
                    Member(self.fleet, self.identity, self.group, again=True)
            return
        self.left_by = self.left_by or manner
        if manner == "drop":
            self.drop()
            return
        if manner == "expire" and self.expiry:
            self.say(disconnect(0))
            self.session.expiry = 0
        elif manner in ("disconnect", "expire"):
            self.say(disconnect())
        if not self.session.expiry:
            self.session.may_have_ended()
        self.finish()
        if self.rule.random() < 0.7:
            self.fleet.later(self.identity, self.group)

    def drop(self):
        """Drops the connection with whatever is on its way, perhaps in the midst of a packet."""
        self.hide()
        self.identity.note(self, f"drops, {self.sent} bytes of {self.said} sent")
        if not self.session.expiry:
            self.session.may_have_ended()
        self.identity.open.remove(self)
        if self.output and self.rule.random() < 0.5:
            try:
                self.sent += self.socket.send(self.output[: self.rule.randint(1, len(self.output))])
            except OSError:
                pass
        self.close(reset=self.rule.random() < 0.5)
        self.unsent()
        if self.rule.random() < 0.8:
            self.fleet.later(self.identity, self.group)

    def hide(self):
        """The connection ended with deliveries unread: as many at most as it has room for beside those that were read and not acknowledged."""
        if not self.hasty:
            self.group.hidden += self.limit() - len(self.window)

    def unsent(self):
        """PUBACK packets that never went were not read."""
        for entry in self.settled:
            if entry is not None and entry[1] > self.sent and entry[0].holder is self.session and not entry[0].sure:
                entry[0].code = None

    def over(self, clean):
        self.identity.note(self, f"is over, clean {clean}, told {self.told}, {self.sent} bytes of {self.said} sent")
        self.identity.open.remove(self)
        self.unsent()
        name, expected = self.identity.name, self.left_by is not None or self.fleet.closing or self.hasty
        if self.session is None:
            if not expected and not self.older:
                raise Fault(f"{name}: ended before its CONNACK")
            return
        if not clean:
            self.hide()
            self.fleet.broken += 1
        if not expected and (self.told is None or self.told == 0x8E):
            raise Fault(f"{name}: ended, told {self.told}, and nobody took it over")
        if self.told == 0x8E:
            self.fleet.taken_over += 1
        elif self.told not in (None, 0x8B):
            raise Fault(f"{name}: told {self.told:#x}")
        elif self.told is None and clean and self.left_by in ("disconnect", "fin", "expire") and not self.hasty and not self.fleet.closing:
            # it was read to its end, and so was all that it sent
            self.confirm(len(self.settled))
            if not self.session.expiry and self.session is self.identity.session:
                self.session.ended = "surely"

    def is_settled(self):
        return self.joined and not self.output and not self.marks
