//! "Encoder".

use super::{clock, refused_size, FIRST_SIZE, FULL_FIELD, LONGEST_MESSAGE};
use crate::call::Message;
use std::collections::BTreeMap;

/// What is remembered for a chunk stream: its last message.
#[derive(Clone)]
struct Remembered {
    time: u32,
    /// All 32 bits: the delta, or after type 0 the absolute time.
    field: u32,
    kind: u8,
    length: usize,
    stream: u32,
    droppable: bool,
}

pub struct Encoder {
    size: u32,
    remembered: BTreeMap<u8, Remembered>,
}

impl Encoder {
    pub fn new() -> Encoder {
        Encoder { size: FIRST_SIZE, remembered: BTreeMap::new() }
    }

    /// Order: 1, 2, 5.
    pub fn encode(
        &mut self,
        message: &Message,
        forced: bool,
        droppable: bool,
        out: usize,
    ) -> Result<Vec<u8>, u8> {
        refused_payload(&message.payload)?;
        let chunk_stream = chunk_stream_of(message.kind);
        let (first_type, field) = self.first_chunk(message, forced);
        let packet = self.packet(message, forced, first_type, field);
        if out < packet.len() {
            return Err(5);
        }
        let remembered = Remembered {
            time: message.time,
            field,
            kind: message.kind,
            length: message.payload.len(),
            stream: message.stream,
            droppable,
        };
        self.remembered.insert(chunk_stream, remembered);
        Ok(packet)
    }

    /// What the message would take. Order: 1, 2.
    pub fn length(&self, message: &Message, forced: bool) -> Result<usize, u8> {
        refused_payload(&message.payload)?;
        let (first_type, field) = self.first_chunk(message, forced);
        Ok(self.packet(message, forced, first_type, field).len())
    }

    pub fn size(&self) -> u32 {
        self.size
    }

    /// Order: 3, 4, 5. "A size change sends message type 1, stream 0, forced, not droppable, its
    /// body the new size in four bytes, cut by the old size; the new size holds afterwards."
    pub fn change_size(&mut self, size: u32, time: u32, out: usize) -> Result<Vec<u8>, u8> {
        if let Some(number) = refused_size(size) {
            return Err(number);
        }
        let payload = size.to_be_bytes().to_vec();
        let message = Message { kind: 1, stream: 0, time, payload };
        let packet = self.encode(&message, true, false, out)?;
        self.size = size;
        Ok(packet)
    }

    /// The type and the time field of a message's first chunk: "first rule that applies".
    fn first_chunk(&self, message: &Message, forced: bool) -> (u8, u32) {
        let absolute = (0, message.time);
        let last = match self.remembered.get(&chunk_stream_of(message.kind)) {
            _ if forced => return absolute,
            None => return absolute,
            Some(last) if last.droppable => return absolute,
            Some(last) => last,
        };
        let delta = clock::subtract(message.time, last.time);
        if message.stream != last.stream {
            absolute
        } else if message.kind != last.kind || message.payload.len() != last.length {
            (1, delta)
        } else if delta != last.field {
            (2, delta)
        } else {
            (3, delta)
        }
    }

    /// All chunks of a message. "Later chunks are type 3 with the remembered field; when forced,
    /// they are all type 0."
    fn packet(&self, message: &Message, forced: bool, first_type: u8, field: u32) -> Vec<u8> {
        let later_type = if forced { 0 } else { 3 };
        let mut packet = Vec::new();
        for (i, part) in message.payload.chunks(self.size as usize).enumerate() {
            let chunk_type = if i == 0 { first_type } else { later_type };
            add_header(&mut packet, message, chunk_type, field);
            packet.extend_from_slice(part);
        }
        packet
    }
}

fn refused_payload(payload: &[u8]) -> Result<(), u8> {
    match payload.len() {
        0 => Err(1),
        length if length > LONGEST_MESSAGE as usize => Err(2),
        _ => Ok(()),
    }
}

/// "1 to 6 go on 2; 18, 19 on 3; 9 on 4; 8 on 5; any other on 6."
fn chunk_stream_of(kind: u8) -> u8 {
    match kind {
        1..=6 => 2,
        18 | 19 => 3,
        9 => 4,
        8 => 5,
        _ => 6,
    }
}

/// A chunk's bytes before its payload. All five chunk streams fit the one-byte basic header.
fn add_header(packet: &mut Vec<u8>, message: &Message, chunk_type: u8, field: u32) {
    packet.push(chunk_type << 6 | chunk_stream_of(message.kind));
    if chunk_type <= 2 {
        add_three_bytes(packet, field.min(FULL_FIELD));
    }
    if chunk_type <= 1 {
        add_three_bytes(packet, message.payload.len() as u32);
        packet.push(message.kind);
    }
    if chunk_type == 0 {
        packet.extend_from_slice(&message.stream.to_le_bytes());
    }
    if field >= FULL_FIELD {
        packet.extend_from_slice(&field.to_be_bytes());
    }
}

fn add_three_bytes(packet: &mut Vec<u8>, number: u32) {
    packet.extend_from_slice(&number.to_be_bytes()[1..]);
}
