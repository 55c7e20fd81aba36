//! Asks the original, whatever document 01 says of the call.

use crate::answer::{Answer, Surprise};
use crate::call::{Call, ClockOp, Event, Message};
use bytes::Bytes;
use rml_rtmp::chunk_io::{ChunkDeserializer, ChunkSerializer};
use rml_rtmp::messages::types::user_control;
use rml_rtmp::messages::{MessageDeserializationError, MessageSerializationError};
use rml_rtmp::messages::{MessagePayload, RtmpMessage, UserControlEventType};
use rml_rtmp::time::RtmpTimestamp;
use std::cmp::Ordering;
use std::convert::Infallible;
use std::fmt::Display;
use std::panic::{catch_unwind, AssertUnwindSafe};

pub struct Original {
    serializer: ChunkSerializer,
    deserializer: ChunkDeserializer,
    /// The original does not tell its encoder's size, and with 0 it would never return.
    encoder_size: u32,
    /// What the encoder was asked since it was new, so that another can be brought to where it is.
    asked: Vec<Asked>,
}

enum Asked {
    Message { payload: MessagePayload, forced: bool, droppable: bool },
    Size { size: u32, time: u32 },
}

impl Original {
    pub fn new() -> Original {
        Original {
            serializer: ChunkSerializer::new(),
            deserializer: ChunkDeserializer::new(),
            encoder_size: 128,
            asked: Vec::new(),
        }
    }

    pub fn answer(&mut self, call: &Call) -> Answer {
        let answer = match call {
            Call::Clock { op, a, b } => ask(|| Ok::<_, Infallible>(clock(*op, *a, *b))),
            Call::ReadControl { body } => ask(|| read_control(body)),
            Call::WriteControl { event, .. } => ask(|| write_control(*event)),
            Call::NewEncoder => {
                self.serializer = ChunkSerializer::new();
                self.encoder_size = 128;
                self.asked.clear();
                Ok(Answer::Ok)
            }
            Call::Encode { message, forced, droppable, .. } => {
                self.encode(message, *forced, *droppable)
            }
            Call::EncoderSize { size, time, .. } => self.change_encoder_size(*size, *time),
            Call::EncodedLength { message, forced } => self.length(message, *forced),
            Call::AskEncoderSize => Ok(Answer::Size(self.encoder_size)),
            Call::NewDecoder { .. } => {
                self.deserializer = ChunkDeserializer::new();
                Ok(Answer::Ok)
            }
            Call::Feed { piece, .. } => Ok(self.feed(piece)),
            Call::DecoderSize { size } => {
                ask(|| self.deserializer.set_max_chunk_size(*size as usize).map(|()| Answer::Ok))
            }
            Call::AskDecoderSize => Ok(Answer::Size(self.deserializer.get_max_chunk_size() as u32)),
        };
        answer.unwrap_or_else(Answer::Original)
    }

    /// Hands the original one byte, and answers the message that this byte completes.
    ///
    /// No further call with no bytes is needed to get a message out. The original goes from stage
    /// to stage within one call for as long as its bytes suffice, so the call that brings the last
    /// byte of a header or payload also hands out the message, one of length 0 included. And since
    /// it never holds more than one byte too many, nothing is left unread after a message.
    pub fn feed_byte(&mut self, byte: u8) -> Result<Option<Message>, Surprise> {
        let next = ask(|| self.deserializer.get_next_message(&[byte]))?;
        Ok(next.map(|payload| Message {
            kind: payload.type_id,
            stream: payload.message_stream_id,
            time: payload.timestamp.value,
            payload: payload.data.to_vec(),
        }))
    }

    fn feed(&mut self, piece: &[u8]) -> Answer {
        for (i, &byte) in piece.iter().enumerate() {
            match self.feed_byte(byte) {
                Ok(None) => (),
                Ok(Some(message)) => return Answer::Message { message, used: i + 1 },
                Err(surprise) => return Answer::Original(surprise),
            }
        }
        Answer::More { used: piece.len() }
    }

    fn encode(&mut self, m: &Message, forced: bool, droppable: bool) -> Result<Answer, Surprise> {
        if self.encoder_size == 0 && !m.payload.is_empty() {
            return Err(Surprise::NeverReturns);
        }
        let payload = payload_of(m);
        let packet = ask(|| self.serializer.serialize(&payload, forced, droppable))?;
        self.asked.push(Asked::Message { payload, forced, droppable });
        Ok(Answer::Wrote(packet.bytes))
    }

    /// The original cannot be asked for a length. A second encoder is asked all that this one was, and
    /// then writes the message.
    fn length(&mut self, m: &Message, forced: bool) -> Result<Answer, Surprise> {
        if self.encoder_size == 0 && !m.payload.is_empty() {
            return Err(Surprise::NeverReturns);
        }
        let mut second = ChunkSerializer::new();
        for asked in &self.asked {
            match asked {
                Asked::Message { payload, forced, droppable } => {
                    ask(|| second.serialize(payload, *forced, *droppable))?
                }
                Asked::Size { size, time } => {
                    ask(|| second.set_max_chunk_size(*size, RtmpTimestamp::new(*time)))?
                }
            };
        }
        let packet = ask(|| second.serialize(&payload_of(m), forced, false))?;
        Ok(Answer::Length(packet.bytes.len()))
    }

    fn change_encoder_size(&mut self, size: u32, time: u32) -> Result<Answer, Surprise> {
        if self.encoder_size == 0 {
            return Err(Surprise::NeverReturns);
        }
        let at = RtmpTimestamp::new(time);
        let packet = ask(|| self.serializer.set_max_chunk_size(size, at))?;
        self.encoder_size = size;
        self.asked.push(Asked::Size { size, time });
        Ok(Answer::Wrote(packet.bytes))
    }
}

fn payload_of(m: &Message) -> MessagePayload {
    MessagePayload {
        timestamp: RtmpTimestamp::new(m.time),
        type_id: m.kind,
        message_stream_id: m.stream,
        data: Bytes::from(m.payload.clone()),
    }
}

/// Runs a call of the original. What it says when it panics goes to stderr.
fn ask<T, E: Display>(call: impl FnOnce() -> Result<T, E>) -> Result<T, Surprise> {
    match catch_unwind(AssertUnwindSafe(call)) {
        Ok(Ok(answer)) => Ok(answer),
        Ok(Err(error)) => Err(Surprise::Failed(error.to_string())),
        Err(_) => Err(Surprise::Panicked),
    }
}

fn clock(op: ClockOp, a: u32, b: u32) -> Answer {
    let (mut first, second) = (RtmpTimestamp::new(a), RtmpTimestamp::new(b));
    match op {
        ClockOp::Add => Answer::Timestamp((first + second).value),
        ClockOp::Sub => Answer::Timestamp((first - second).value),
        ClockOp::Set => {
            first.set(b);
            Answer::Timestamp(first.value)
        }
        ClockOp::Compare => Answer::Order(first.cmp(&second)),
        ClockOp::Distance => Answer::Distance(distance(first, second)),
    }
}

/// The original has no signed distance. This is what its own order and subtraction say: how far it
/// is from the earlier to the later one, negative where the first is the later.
fn distance(first: RtmpTimestamp, second: RtmpTimestamp) -> i64 {
    match first.cmp(&second) {
        Ordering::Less => i64::from((second - first).value),
        Ordering::Equal => 0,
        Ordering::Greater => -i64::from((first - second).value),
    }
}

fn read_control(body: &[u8]) -> Result<Answer, MessageDeserializationError> {
    use self::UserControlEventType::*;
    let message = user_control::deserialize(Bytes::from(body.to_vec()))?;
    let (event_type, numbers) = match message {
        RtmpMessage::UserControl { event_type, stream_id, buffer_length, timestamp } => {
            (event_type, (stream_id, buffer_length, timestamp.map(|t| t.value)))
        }
        _ => unreachable!("a user control body was read"),
    };
    let event = match (event_type, numbers) {
        (StreamBegin, (Some(stream), None, None)) => Event::Begin(stream),
        (StreamEof, (Some(stream), None, None)) => Event::End(stream),
        (StreamDry, (Some(stream), None, None)) => Event::Dry(stream),
        (SetBufferLength, (Some(stream), Some(length), None)) => Event::Buffer(stream, length),
        (StreamIsRecorded, (Some(stream), None, None)) => Event::Recorded(stream),
        (PingRequest, (None, None, Some(time))) => Event::Ping(time),
        (PingResponse, (None, None, Some(time))) => Event::Pong(time),
        (BufferEmpty, (Some(stream), None, None)) => Event::Empty(stream),
        (BufferReady, (Some(stream), None, None)) => Event::Ready(stream),
        (event_type, numbers) => panic!("{:?} came with {:?}", event_type, numbers),
    };
    Ok(Answer::Event(event))
}

fn write_control(event: Event) -> Result<Answer, MessageSerializationError> {
    use self::UserControlEventType::*;
    let of_stream = |kind, stream| user_control::serialize(kind, Some(stream), None, None);
    let of_time =
        |kind, time| user_control::serialize(kind, None, None, Some(RtmpTimestamp::new(time)));
    let body = match event {
        Event::Begin(stream) => of_stream(StreamBegin, stream)?,
        Event::End(stream) => of_stream(StreamEof, stream)?,
        Event::Dry(stream) => of_stream(StreamDry, stream)?,
        Event::Buffer(stream, length) => {
            user_control::serialize(SetBufferLength, Some(stream), Some(length), None)?
        }
        Event::Recorded(stream) => of_stream(StreamIsRecorded, stream)?,
        Event::Ping(time) => of_time(PingRequest, time)?,
        Event::Pong(time) => of_time(PingResponse, time)?,
        Event::Empty(stream) => of_stream(BufferEmpty, stream)?,
        Event::Ready(stream) => of_stream(BufferReady, stream)?,
    };
    Ok(Answer::Wrote(body.to_vec()))
}
