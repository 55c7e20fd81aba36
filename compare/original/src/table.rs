//! A second reading of document 01, written from its text alone and from nobody's code.
//!
//! It says which calls are refused, with which number and at which byte. It also says what every
//! other call answers, so that the original can be held against the paper by itself.
//!
//! It is written to be held beside the paper, not to be fast.

mod clock;
mod control;
mod decoder;
mod encoder;

pub use self::decoder::{Decoder, Step};

use self::encoder::Encoder;
use crate::answer::Answer;
use crate::call::Call;

/// "A time field of 16777215 means that a 4-byte extended time follows."
const FULL_FIELD: u32 = 16_777_215;
/// No message is longer than three bytes of length can say.
const LONGEST_MESSAGE: u32 = 16_777_215;
/// The largest chunk size that a size change may name.
const LARGEST_SIZE: u32 = 2_147_483_647;
/// "The chunk size starts at 128 at both ends."
const FIRST_SIZE: u32 = 128;

pub struct Table {
    pub encoder: Encoder,
    pub decoder: Decoder,
}

impl Table {
    pub fn new() -> Table {
        // At the start of a script the decoder is as after `dec new 65536`.
        Table { encoder: Encoder::new(), decoder: Decoder::new(65_536) }
    }

    pub fn answer(&mut self, call: &Call) -> Answer {
        match call {
            Call::Clock { op, a, b } => clock::answer(*op, *a, *b),
            Call::ReadControl { body } => {
                control::read(body).map_or_else(Answer::Refused, Answer::Event)
            }
            Call::WriteControl { event, out } => written(control::write(*event, *out)),
            Call::NewEncoder => {
                self.encoder = Encoder::new();
                Answer::Ok
            }
            Call::Encode { message, forced, droppable, out } => {
                written(self.encoder.encode(message, *forced, *droppable, *out))
            }
            Call::EncoderSize { size, time, out } => {
                written(self.encoder.change_size(*size, *time, *out))
            }
            Call::EncodedLength { message, forced } => {
                self.encoder.length(message, *forced).map_or_else(Answer::Refused, Answer::Length)
            }
            Call::AskEncoderSize => Answer::Size(self.encoder.size()),
            Call::NewDecoder { room } => {
                self.decoder = Decoder::new(*room);
                self.decoder.closed().map_or(Answer::Ok, Answer::Refused)
            }
            Call::Feed { buffer, piece } => self.decoder.feed(*buffer, piece),
            Call::DecoderSize { size } => {
                self.decoder.tell_size(*size).map_or(Answer::Ok, Answer::Refused)
            }
            Call::AskDecoderSize => Answer::Size(self.decoder.size()),
        }
    }
}

fn written(result: Result<Vec<u8>, u8>) -> Answer {
    result.map_or_else(Answer::Refused, Answer::Wrote)
}

/// The refusal of a chunk size, the same at both ends: 3, then 4.
fn refused_size(size: u32) -> Option<u8> {
    match size {
        0 => Some(3),
        _ if size > LARGEST_SIZE => Some(4),
        _ => None,
    }
}
