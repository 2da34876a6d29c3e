"""MQTT 5.0 packets byte by byte, and a broker that is started and ended: what `tools/fleet`, `tools/ends`, `tools/refuse-memory`, `tools/spread`, `tools/attack`, `tools/many` and `tools/fleet-of-brokers` share."""
import os
import re
import select
import socket
import subprocess
import threading

REPORT = re.compile(
    r"(\$share/\S+) accepted (\d+) acknowledged (\d+) refused (\d+) held (\d+) queued (\d+) returned (\d+) discarded (\d+)"
)
FATES = ("acknowledged", "refused", "held", "queued", "returned", "discarded")


def text(value):
    value = value.encode() if isinstance(value, str) else value
    return len(value).to_bytes(2, "big") + value


def length(number):
    """Returns a Variable Byte Integer."""
    found = b""
    while True:
        number, low = divmod(number, 128)
        found += bytes([low | 0x80 if number else low])
        if not number:
            return found


def packet(first, body):
    return bytes([first]) + length(len(body)) + body


def connect(name, clean=True, expiry=0, receive_maximum=0, keep_alive=0, maximum_packet_size=0, user=None, password=None):
    properties = b"\x11" + expiry.to_bytes(4, "big") if expiry else b""
    properties += b"\x21" + receive_maximum.to_bytes(2, "big") if receive_maximum else b""
    properties += b"\x27" + maximum_packet_size.to_bytes(4, "big") if maximum_packet_size else b""
    flags = bytes([0x02 * clean + 0x80 * (user is not None) + 0x40 * (password is not None)])
    payload = b"".join(text(part) for part in (name, user, password) if part is not None)
    return packet(0x10, text("MQTT") + b"\x05" + flags + keep_alive.to_bytes(2, "big") + length(len(properties)) + properties + payload)


def subscribe(share, identifier=1, subscription=0):
    """Returns a SUBSCRIBE, with a Subscription Identifier where one is given."""
    properties = b"\x0b" + length(subscription) if subscription else b""
    return packet(0x82, identifier.to_bytes(2, "big") + length(len(properties)) + properties + text(share) + b"\x01")


def unsubscribe(share, identifier=2):
    return packet(0xA2, identifier.to_bytes(2, "big") + b"\x00" + text(share))


def publish(topic, payload, identifier, interval=None):
    """Returns a PUBLISH with QoS 1, with a Message Expiry Interval where one is given."""
    properties = b"\x00" if interval is None else b"\x05\x02" + interval.to_bytes(4, "big")
    return packet(0x32, text(topic) + identifier.to_bytes(2, "big") + properties + payload)


def puback(identifier, code=0):
    body = identifier.to_bytes(2, "big")
    return packet(0x40, body + bytes([code]) if code else body)


def disconnect(expiry=None):
    """Returns a DISCONNECT, with a Session Expiry Interval where one is given."""
    return b"\xe0\x00" if expiry is None else b"\xe0\x07\x00\x05\x11" + expiry.to_bytes(4, "big")


PINGREQ = b"\xc0\x00"


def cut(buffer):
    """Takes whole packets off the front of a bytearray: pairs of the first byte and the body."""
    at, found = 0, []
    while True:
        size = shift = 0
        end = at + 1
        whole = False
        for place in range(at + 1, min(at + 5, len(buffer))):
            size |= (buffer[place] & 0x7F) << shift
            shift += 7
            end = place + 1
            if buffer[place] < 0x80:
                whole = True
                break
        if not whole or len(buffer) < end + size:
            del buffer[:at]
            return found
        found.append((buffer[at], bytes(buffer[end : end + size])))
        at = end + size


def job_of(body):
    """Returns the topic, the identifier and the payload of a PUBLISH packet with QoS 1 and no properties of more than 127 bytes."""
    end = 2 + int.from_bytes(body[:2], "big")
    return body[2:end].decode(), int.from_bytes(body[end : end + 2], "big"), body[end + 3 + body[end + 2] :]


def split_properties(body):
    """Returns the Message Expiry Interval of a PUBLISH packet in which it is the first property, or None, and the bytes of the properties behind it."""
    end = 2 + int.from_bytes(body[:2], "big")
    properties = body[end + 3 : end + 3 + body[end + 2]]
    return (int.from_bytes(properties[1:5], "big"), properties[5:]) if properties[:1] == b"\x02" else (None, properties)


def free_port():
    with socket.socket() as listener:
        listener.bind(("127.0.0.1", 0))
        return listener.getsockname()[1]


class Broker:
    """`PROGRAM serve` at a port that the system chooses where none is given, with what it prints. The port is 0 where it does not listen."""

    def __init__(self, program, *words, port=0, patience=20, environment=None, output=subprocess.PIPE, before=None):
        self.port = 0
        self.process = subprocess.Popen(
            [os.path.realpath(program), "serve", "--port", str(port), *words],
            stdin=subprocess.PIPE, stdout=output, stderr=subprocess.PIPE, env=environment, preexec_fn=before,
        )
        self.first = b""
        self.errors = b""
        # what it says on standard error is read as it comes, so that it never waits for room there
        self.reader = threading.Thread(target=self._read_errors, daemon=True)
        self.reader.start()
        if output == subprocess.PIPE and select.select([self.process.stdout], [], [], patience)[0]:
            self.first = self.process.stdout.readline().rstrip(b"\n")
            if self.first.startswith(b"listening "):
                self.port = int(self.first.split()[1])

    def _read_errors(self):
        for line in self.process.stderr:
            self.errors += line

    def listens(self):
        return self.port > 0 and self.first == b"listening %d" % self.port

    def close(self):
        """Ends the broker's standard input."""
        try:
            self.process.stdin.close()
        except OSError:
            pass

    def end(self, patience=20):
        """Waits for its end. Returns its status, or None where it did not end, and the report of each share; the numbers behind `accepted`."""
        self.close()
        kill = threading.Timer(patience, self.process.kill)
        kill.start()
        printed = self.process.stdout.read().decode() if self.process.stdout else ""
        status = self.process.wait()
        late = not kill.is_alive()
        kill.cancel()
        self.reader.join(5)
        reports = {line[1]: tuple(map(int, line.groups()[1:])) for line in REPORT.finditer(printed)}
        return None if late else status, reports
