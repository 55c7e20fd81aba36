//! The original's answers on the runs that document 01 does not refuse, and its refusals on the
//! others.
//!
//! The table says whether a call is refused, with which number and at which byte. Everything else
//! that is printed is the original's: its bytes, its messages, its payload, its count of used bytes.
//!
//! The lent payload buffer is not kept. A message's payload is read from its first bytes, all of
//! them written since that message began, so nothing else of the buffer can ever be seen.

use crate::answer::{Answer, Surprise};
use crate::call::Call;
use crate::original::Original;
use crate::table::{Step, Table};

pub struct Judged {
    table: Table,
    original: Original,
}

impl Judged {
    pub fn new() -> Judged {
        Judged { table: Table::new(), original: Original::new() }
    }

    pub fn answer(&mut self, call: &Call) -> Answer {
        if let Call::Feed { buffer, piece } = call {
            return self.feed(*buffer, piece);
        }
        match self.table.answer(call) {
            // The original's run is over, and a decoder that was closed from the start is none of its own.
            Answer::Size(size) if self.table.decoder.closed().is_some() && is_of_decoder(call) => {
                Answer::Size(size)
            }
            Answer::Refused(number @ (15 | 16)) => self.refused_body(number, call),
            // Not passed on: the original would take it, or would change what it remembers.
            Answer::Refused(number) => Answer::Refused(number),
            _ => self.original.answer(call),
        }
    }

    /// The original is fed one byte at a time, so that `used` is the count at its message. It gets
    /// no more bytes once the table has closed the decoder.
    fn feed(&mut self, buffer: u32, piece: &[u8]) -> Answer {
        if let Some(number) = self.table.decoder.refused_call(buffer) {
            return Answer::RefusedFeed { number, used: 0 };
        }
        for (i, &byte) in piece.iter().enumerate() {
            let used = i + 1;
            // Where the table holds that a message is complete here, the original must say so.
            if let Step::Refused(number) = self.table.decoder.step(byte) {
                return self.refused_byte(number, used, byte);
            }
            match self.original.feed_byte(byte) {
                Ok(None) => (),
                Ok(Some(message)) => return Answer::Message { message, used },
                Err(surprise) => return Answer::Original(surprise),
            }
        }
        Answer::More { used: piece.len() }
    }

    /// Of the refusals at a byte only 9 is the crate's own; there it is held to refuse as well.
    fn refused_byte(&mut self, number: u8, used: usize, byte: u8) -> Answer {
        let refused = Answer::RefusedFeed { number, used };
        if number != 9 {
            return refused;
        }
        match self.original.feed_byte(byte) {
            Err(Surprise::Failed(_)) => refused,
            Err(surprise) => Answer::Original(surprise),
            Ok(_) => Answer::Original(Surprise::Accepted),
        }
    }

    /// 15 and 16 are the crate's own too.
    fn refused_body(&mut self, number: u8, call: &Call) -> Answer {
        match self.original.answer(call) {
            Answer::Original(Surprise::Failed(_)) => Answer::Refused(number),
            other => other,
        }
    }
}

fn is_of_decoder(call: &Call) -> bool {
    matches!(call, Call::AskDecoderSize)
}

/// What no script can say: its lines and its payload buffer are too short for the longest message.
#[cfg(test)]
mod tests {
    use super::*;
    use crate::call::Message;

    const LONGEST: usize = 16_777_215;

    fn encode(length: usize) -> Call {
        let payload = (0..length).map(|i| (i % 251) as u8).collect();
        let message = Message { kind: 9, stream: 1, time: 16_777_215, payload };
        Call::Encode { message, forced: false, droppable: false, out: usize::MAX }
    }

    #[test]
    fn the_longest_message_goes_through_both() {
        let encode = encode(LONGEST);
        let packet = match Judged::new().answer(&encode) {
            Answer::Wrote(packet) => packet,
            other => panic!("{}", other),
        };
        assert_eq!(
            Answer::Wrote(packet.clone()).to_string(),
            Table::new().answer(&encode).to_string()
        );

        let new = Call::NewDecoder { room: LONGEST as u32 };
        let feed = Call::Feed { buffer: LONGEST as u32, piece: packet };
        let (mut judged, mut table) = (Judged::new(), Table::new());
        judged.answer(&new);
        table.answer(&new);
        let answer = judged.answer(&feed).to_string();
        assert!(answer.starts_with("message 9 1 16777215 16777215 used "));
        assert_eq!(answer, table.answer(&feed).to_string());
    }

    #[test]
    fn one_byte_more_is_refused_by_both() {
        let encode = encode(LONGEST + 1);
        assert!(matches!(Table::new().answer(&encode), Answer::Refused(2)));
        assert!(matches!(Original::new().answer(&encode), Answer::Original(Surprise::Failed(_))));
    }
}
