//! The original's side, driven as its own documentation says.

use crate::input::Input;
use crate::tally::Tally;
use bytes::Bytes;
use rml_rtmp::chunk_io::{ChunkDeserializer, ChunkSerializer};
use rml_rtmp::messages::MessagePayload;
use rml_rtmp::time::RtmpTimestamp;

/// A piece, then no bytes for as long as messages come.
pub fn decode(input: &Input, piece: usize, every: usize) -> Tally {
    let mut decoder = ChunkDeserializer::new();
    decoder.set_max_chunk_size(input.size as usize).expect("the size is valid");
    let mut tally = Tally::default();
    for piece in input.wire.chunks(piece) {
        let mut bytes = piece;
        while let Some(message) = decoder.get_next_message(bytes).expect("the input is valid") {
            tally.mix(u32::from(message.type_id));
            tally.mix(message.message_stream_id);
            tally.mix(message.timestamp.value);
            tally.mix(message.data.len() as u32);
            tally.probe(&message.data, every);
            tally.messages += 1;
            bytes = &[];
        }
        tally.bytes += piece.len() as u64;
    }
    tally
}

/// An encoder that has told its peer a chunk size.
fn encoder(size: u32) -> ChunkSerializer {
    let mut encoder = ChunkSerializer::new();
    encoder.set_max_chunk_size(size, RtmpTimestamp::new(0)).expect("the size is valid");
    encoder
}

/// The messages that are encoded, made before the clock runs.
pub fn messages(input: &Input) -> Vec<MessagePayload> {
    let source = Bytes::from(input.source.clone());
    let message = |i: usize| MessagePayload {
        timestamp: RtmpTimestamp::new(input.times[i]),
        type_id: input.kinds[i],
        message_stream_id: 1,
        data: source.slice(i * input.width..(i + 1) * input.width),
    };
    (0..input.kinds.len()).map(message).collect()
}

pub fn encode(size: u32, messages: &[MessagePayload], every: usize) -> Tally {
    let mut encoder = encoder(size);
    let mut tally = Tally::default();
    for message in messages {
        let packet = encoder.serialize(message, false, false).expect("the message is valid");
        tally.probe(&packet.bytes, every);
        tally.messages += 1;
        tally.bytes += packet.bytes.len() as u64;
    }
    tally
}

/// All packets in a row, as a peer would read them.
pub fn wire(input: &Input) -> Vec<u8> {
    let mut encoder = encoder(input.size);
    let packet = |m| encoder.serialize(m, false, false).expect("the message is valid").bytes;
    messages(input).iter().flat_map(packet).collect()
}
