//! The packets that a load sends and is sent, as far as it has to know them (MQTT 5.0, sections 2.1, 3.1, 3.3 and 3.8).

/// The first bytes of packets.
pub const CONNACK: u8 = 0x20;
pub const PUBACK: u8 = 0x40;
pub const SUBACK: u8 = 0x90;
pub const PINGRESP: u8 = 0xd0;
pub const DISCONNECT: u8 = 0xe0;

/// The first bytes of a PUBLISH packet with QoS 1, without and with DUP.
pub const PUBLISH: u8 = 0x32;
pub const PUBLISH_AGAIN: u8 = 0x3a;

/// How many bytes at the front of a payload say which job it is, and when it was published.
pub const LEAST_PAYLOAD: usize = 16;

/// Puts a Variable Byte Integer behind these bytes.
fn put_length(bytes: &mut Vec<u8>, mut length: usize) {
    while length >= 128 {
        bytes.push((length % 128) as u8 | 128);
        length /= 128;
    }
    bytes.push(length as u8);
}

/// Puts a text with its length behind these bytes.
fn put_text(bytes: &mut Vec<u8>, text: &str) {
    bytes.extend_from_slice(&(text.len() as u16).to_be_bytes());
    bytes.extend_from_slice(text.as_bytes());
}

/// Puts a packet with this first byte and this body behind these bytes.
fn put_packet(bytes: &mut Vec<u8>, first: u8, body: &[u8]) {
    bytes.push(first);
    put_length(bytes, body.len());
    bytes.extend_from_slice(body);
}

/// Puts a CONNECT packet with Clean Start behind these bytes.
pub fn put_connect(
    bytes: &mut Vec<u8>,
    client_identifier: &str,
    keep_alive: u16,
    receive_maximum: u16,
) {
    let mut body = b"\x00\x04MQTT\x05\x02".to_vec();
    body.extend_from_slice(&keep_alive.to_be_bytes());
    body.extend_from_slice(b"\x03\x21");
    body.extend_from_slice(&receive_maximum.to_be_bytes());
    put_text(&mut body, client_identifier);
    put_packet(bytes, 0x10, &body);
}

/// Puts a SUBSCRIBE packet for this filter, with QoS 1, behind these bytes.
pub fn put_subscribe(bytes: &mut Vec<u8>, filter: &str) {
    let mut body = b"\x00\x01\x00".to_vec();
    put_text(&mut body, filter);
    body.push(0x01);
    put_packet(bytes, 0x82, &body);
}

/// Puts a PUBACK packet of success behind these bytes.
pub fn put_puback(bytes: &mut Vec<u8>, packet_identifier: [u8; 2]) {
    let [high, low] = packet_identifier;
    bytes.extend_from_slice(&[PUBACK, 2, high, low]);
}

/// Puts a PINGREQ packet behind these bytes.
pub fn put_pingreq(bytes: &mut Vec<u8>) {
    bytes.extend_from_slice(b"\xc0\x00");
}

/// Puts a DISCONNECT packet behind these bytes.
pub fn put_disconnect(bytes: &mut Vec<u8>) {
    bytes.extend_from_slice(&[DISCONNECT, 0]);
}

/// Which job a payload is, and when it was published, in nanoseconds since the start.
#[derive(Clone, Copy)]
pub struct Job {
    pub moment: u64,
    pub publisher: u32,
    pub number: u32,
}

impl Job {
    /// Puts what says which job it is behind these bytes.
    fn put(&self, bytes: &mut Vec<u8>) {
        bytes.extend_from_slice(&self.moment.to_be_bytes());
        bytes.extend_from_slice(&self.publisher.to_be_bytes());
        bytes.extend_from_slice(&self.number.to_be_bytes());
    }

    /// The job of this payload; `None` where it is too short.
    fn of_payload(payload: &[u8]) -> Option<Job> {
        Some(Job {
            moment: u64::from_be_bytes(payload.get(..8)?.try_into().ok()?),
            publisher: u32::from_be_bytes(payload.get(8..12)?.try_into().ok()?),
            number: u32::from_be_bytes(payload.get(12..16)?.try_into().ok()?),
        })
    }
}

/// What all PUBLISH packets of a load have in common: the bytes before the Packet Identifier, and those behind what says which job it is.
pub struct PublishForm {
    head: Vec<u8>,
    tail: Vec<u8>,
}

impl PublishForm {
    /// The form of jobs for this topic, with payloads of so many bytes, `LEAST_PAYLOAD` at least.
    pub fn new(topic: &str, payload: usize) -> PublishForm {
        let mut head = vec![PUBLISH];
        put_length(&mut head, topic.len() + 5 + payload);
        put_text(&mut head, topic);
        let tail = vec![b'.'; payload - LEAST_PAYLOAD];
        PublishForm { head, tail }
    }

    /// Puts a job with QoS 1 under this Packet Identifier behind these bytes.
    pub fn put(&self, bytes: &mut Vec<u8>, packet_identifier: u16, job: Job) {
        bytes.extend_from_slice(&self.head);
        bytes.extend_from_slice(&packet_identifier.to_be_bytes());
        bytes.push(0);
        job.put(bytes);
        bytes.extend_from_slice(&self.tail);
    }
}

/// A packet: its first byte, and what stands behind its Remaining Length.
#[derive(Clone, Copy)]
pub struct Packet<'a> {
    pub first: u8,
    pub body: &'a [u8],
}

/// The Remaining Length at the front, and how many bytes it has.
fn remaining_length(bytes: &[u8]) -> Option<(usize, usize)> {
    let mut length = 0;
    for (place, byte) in bytes.iter().enumerate().take(4) {
        length += usize::from(byte % 128) << (7 * place);
        if *byte < 128 {
            return Some((length, place + 1));
        }
    }
    None
}

impl<'a> Packet<'a> {
    /// The packet at the front, and what stands behind it; `None` where not all of it is there.
    pub fn split_first(bytes: &'a [u8]) -> Option<(Packet<'a>, &'a [u8])> {
        let (first, behind) = bytes.split_first()?;
        let (length, size) = remaining_length(behind)?;
        let body = behind.get(size..size + length)?;
        Some((
            Packet {
                first: *first,
                body,
            },
            &behind[size + length..],
        ))
    }

    /// The Reason Code of a CONNACK or a DISCONNECT packet, and the last byte of another one; 0 where there is none.
    pub fn reason_code(&self) -> u8 {
        match (self.first, self.body) {
            (CONNACK, [_, code, ..]) | (DISCONNECT, [code, ..]) | (_, [.., code]) => *code,
            _ => 0,
        }
    }

    /// The Packet Identifier and the job of a PUBLISH packet with QoS 1 and a payload of so many bytes; `None` where it is no job of a load.
    pub fn delivery(&self, payload: usize) -> Option<([u8; 2], Job)> {
        let topic = usize::from(u16::from_be_bytes([
            *self.body.first()?,
            *self.body.get(1)?,
        ]));
        let packet_identifier = [*self.body.get(topic + 2)?, *self.body.get(topic + 3)?];
        let start = self.body.len().checked_sub(payload)?;
        Some((packet_identifier, Job::of_payload(&self.body[start..])?))
    }
}
