//! "Decoder", one byte at a time.
//!
//! The bytes of a chunk's header are gathered and read again from the first at every byte, so that
//! there is no half-read state to get wrong: a header either says enough by now or it does not.

use super::{clock, refused_size, FIRST_SIZE, FULL_FIELD, LONGEST_MESSAGE};
use crate::answer::Answer;
use crate::call::Message;

const MOST_ROWS: usize = 64;
/// Header bytes after the basic header, by chunk type, the extended time not counted.
const FIELD_BYTES: [usize; 4] = [11, 7, 3, 0];

/// What one byte does.
pub enum Step {
    More,
    Message(Message),
    Refused(u8),
}

/// What a chunk stream's row holds, and what a message in hand is made of.
#[derive(Clone)]
struct Header {
    time: u32,
    /// The 24-bit time field that the stream's last type 0, 1 or 2 chunk carried.
    field: u32,
    length: u32,
    kind: u8,
    stream: u32,
}

/// A row is claimed at the last basic header byte and filled when its chunk is finished.
struct Row {
    id: u32,
    header: Option<Header>,
}

/// The unfinished message. One of length 0 is never in hand.
struct InHand {
    id: u32,
    header: Header,
    payload: Vec<u8>,
}

/// The first one to three bytes of a chunk.
struct Basic {
    chunk_type: u8,
    id: u32,
    bytes: usize,
}

/// The rest of a chunk's header. Length, kind and stream are those of the row where the chunk
/// leaves them out.
struct Fields {
    field: u32,
    extended: Option<u32>,
    length: u32,
    kind: u8,
    stream: u32,
}

pub struct Decoder {
    room: u32,
    size: u32,
    closed: Option<u8>,
    rows: Vec<Row>,
    /// The header bytes of the chunk being read; empty between chunks and within a payload.
    header: Vec<u8>,
    /// Payload bytes that the chunk being read still lacks.
    lacking: u32,
    in_hand: Option<InHand>,
}

impl Decoder {
    pub fn new(room: u32) -> Decoder {
        let bad_room = room == 0 || room > LONGEST_MESSAGE;
        Decoder {
            room,
            size: FIRST_SIZE,
            closed: if bad_room { Some(6) } else { None },
            rows: Vec::new(),
            header: Vec::new(),
            lacking: 0,
            in_hand: None,
        }
    }

    pub fn closed(&self) -> Option<u8> {
        self.closed
    }

    /// A closed decoder has the size that it had.
    pub fn size(&self) -> u32 {
        self.size
    }

    /// Order: closed, 3, 4, 8.
    pub fn tell_size(&mut self, size: u32) -> Option<u8> {
        // 8 counts from the first byte of the first basic header to the byte that answers.
        let inside = self.in_hand.is_some() || !self.header.is_empty();
        let refusal = self.closed.or(refused_size(size)).or(if inside { Some(8) } else { None });
        if refusal.is_none() {
            self.size = size;
        }
        refusal
    }

    pub fn feed(&mut self, buffer: u32, piece: &[u8]) -> Answer {
        if let Some(number) = self.refused_call(buffer) {
            return Answer::RefusedFeed { number, used: 0 };
        }
        for (i, &byte) in piece.iter().enumerate() {
            let used = i + 1;
            match self.step(byte) {
                Step::More => (),
                Step::Message(message) => return Answer::Message { message, used },
                Step::Refused(number) => return Answer::RefusedFeed { number, used },
            }
        }
        Answer::More { used: piece.len() }
    }

    /// "Decoder call: closed, 7, then by bytes."
    pub fn refused_call(&self, buffer: u32) -> Option<u8> {
        self.closed.or(if buffer < self.room { Some(7) } else { None })
    }

    /// Takes one byte; to be asked only after `refused_call` has answered none.
    pub fn step(&mut self, byte: u8) -> Step {
        if self.lacking > 0 {
            return self.payload_byte(byte);
        }
        self.header.push(byte);
        self.header_byte().unwrap_or_else(|number| {
            self.closed = Some(number);
            Step::Refused(number)
        })
    }

    /// The header has grown by a byte: judge what that byte settles.
    fn header_byte(&mut self) -> Result<Step, u8> {
        let basic = match read_basic(&self.header) {
            Some(basic) => basic,
            None => return Ok(Step::More),
        };
        if self.header.len() == basic.bytes {
            self.judge_basic(&basic)?;
            self.claim(&basic);
        }
        let fields = match self.read_fields(&basic) {
            Some(fields) => fields,
            None => return Ok(Step::More),
        };
        self.judge_fields(&basic, &fields)?;
        self.header.clear();
        Ok(self.open_chunk(&basic, &fields))
    }

    /// What the last byte of the basic header settles, in the paper's order.
    fn judge_basic(&self, basic: &Basic) -> Result<(), u8> {
        let has_row = self.rows.iter().any(|row| row.id == basic.id);
        let inside = self.in_hand.is_some();
        let other_stream = self.in_hand.as_ref().map_or(false, |m| m.id != basic.id);
        first_of(&[
            (9, !inside && basic.chunk_type != 0 && !has_row),
            (10, basic.chunk_type == 0 && !has_row && self.rows.len() >= MOST_ROWS),
            (11, other_stream),
            (12, inside && (basic.chunk_type == 1 || basic.chunk_type == 2)),
        ])
    }

    /// What the last byte of the whole header settles, in the paper's order.
    fn judge_fields(&self, basic: &Basic, fields: &Fields) -> Result<(), u8> {
        let first = self.in_hand.is_none();
        let small = fields.extended.map_or(false, |time| time < FULL_FIELD);
        let repeats = self.in_hand.as_ref().map_or(false, |m| fields.repeat(&m.header));
        first_of(&[
            (12, !first && basic.chunk_type == 0 && !repeats),
            (13, first && basic.chunk_type != 0 && small),
            (14, first && fields.length > self.room),
        ])
    }

    fn claim(&mut self, basic: &Basic) {
        if basic.chunk_type == 0 && self.rows.iter().all(|row| row.id != basic.id) {
            self.rows.push(Row { id: basic.id, header: None });
        }
    }

    /// What the chunk stream's row holds, once one of its chunks is finished.
    fn row(&self, id: u32) -> Option<&Header> {
        self.rows.iter().find(|row| row.id == id)?.header.as_ref()
    }

    /// The fields after the basic header, once the last of them is there.
    fn read_fields(&self, basic: &Basic) -> Option<Fields> {
        let bytes = &self.header[basic.bytes..];
        let plain = FIELD_BYTES[usize::from(basic.chunk_type)];
        if bytes.len() < plain {
            return None;
        }
        let row = self.row(basic.id);
        let of_row = || row.expect("types 1 to 3 got past 9, 11 and 12, so there is a row");
        let (length, kind) = match basic.chunk_type {
            0 | 1 => (big_endian(&bytes[3..6]), bytes[6]),
            _ => (of_row().length, of_row().kind),
        };
        let field = match basic.chunk_type {
            3 => of_row().field,
            _ => big_endian(&bytes[..3]),
        };
        let extended = match field {
            FULL_FIELD => Some(big_endian(bytes.get(plain..plain + 4)?)),
            _ => None,
        };
        let stream = match basic.chunk_type {
            0 => little_endian(&bytes[7..11]),
            _ => of_row().stream,
        };
        Some(Fields { field, extended, length, kind, stream })
    }

    /// The header is whole and nothing refuses it: the payload begins, if there is any.
    fn open_chunk(&mut self, basic: &Basic, fields: &Fields) -> Step {
        match &mut self.in_hand {
            // A later chunk tells nothing new but the field that a type 0 carries.
            Some(message) => message.header.field = fields.field,
            None => {
                let header = self.first_header(basic, fields);
                self.in_hand = Some(InHand { id: basic.id, header, payload: Vec::new() });
            }
        }
        self.lacking = self.size.min(self.message_lacks());
        self.close_chunk()
    }

    /// "Type 0 sets the time. Other types add the delta once, at the first chunk of a message."
    fn first_header(&self, basic: &Basic, fields: &Fields) -> Header {
        let time = match basic.chunk_type {
            0 => fields.time(),
            _ => clock::add(self.row(basic.id).map_or(0, |row| row.time), fields.time()),
        };
        Header {
            time,
            field: fields.field,
            length: fields.length,
            kind: fields.kind,
            stream: fields.stream,
        }
    }

    fn payload_byte(&mut self, byte: u8) -> Step {
        if let Some(message) = &mut self.in_hand {
            message.payload.push(byte);
        }
        self.lacking -= 1;
        self.close_chunk()
    }

    /// Where the chunk lacks nothing more, its row is filled; where the message lacks nothing
    /// more either, it is answered.
    fn close_chunk(&mut self) -> Step {
        if self.lacking > 0 {
            return Step::More;
        }
        if let Some(message) = &self.in_hand {
            let (id, header) = (message.id, message.header.clone());
            for row in self.rows.iter_mut().filter(|row| row.id == id) {
                row.header = Some(header.clone());
            }
        }
        if self.message_lacks() > 0 {
            return Step::More;
        }
        self.in_hand.take().map_or(Step::More, |m| {
            let Header { time, kind, stream, .. } = m.header;
            Step::Message(Message { kind, stream, time, payload: m.payload })
        })
    }

    fn message_lacks(&self) -> u32 {
        self.in_hand.as_ref().map_or(0, |m| m.header.length - m.payload.len() as u32)
    }
}

impl Fields {
    /// The number that the time field stands for: a time after type 0, else a delta.
    fn time(&self) -> u32 {
        self.extended.unwrap_or(self.field)
    }

    /// "A type 0 that repeats its length, type, stream id and time": the 32-bit time, in
    /// whichever form.
    fn repeat(&self, header: &Header) -> bool {
        self.length == header.length
            && self.kind == header.kind
            && self.stream == header.stream
            && self.time() == header.time
    }
}

/// The first line that holds is the refusal.
fn first_of(lines: &[(u8, bool)]) -> Result<(), u8> {
    match lines.iter().find(|line| line.1) {
        Some(line) => Err(line.0),
        None => Ok(()),
    }
}

/// "The top two bits are the type, the low six are n": id n, or b + 64, or 256*b2 + b1 + 64.
fn read_basic(header: &[u8]) -> Option<Basic> {
    let chunk_type = header.first()? >> 6;
    let (id, bytes) = match header.first()? & 63 {
        0 => (u32::from(*header.get(1)?) + 64, 2),
        1 => (256 * u32::from(*header.get(2)?) + u32::from(*header.get(1)?) + 64, 3),
        n => (u32::from(n), 1),
    };
    Some(Basic { chunk_type, id, bytes })
}

fn big_endian(bytes: &[u8]) -> u32 {
    bytes.iter().fold(0, |n, &b| n << 8 | u32::from(b))
}

fn little_endian(bytes: &[u8]) -> u32 {
    bytes.iter().rev().fold(0, |n, &b| n << 8 | u32::from(b))
}
