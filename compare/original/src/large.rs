//! Calls that no line of a script can hold: their bytes are made here, and told by a hash.
//!
//!     encode SIZE TIME FORCED LENGTH OUT    a message of type 9 on stream 1, byte i being i % 251, by a fresh encoder
//!     decode ROOM BUFFER SIZE PIECE         what was written last, in pieces, by a new decoder, up to its first answer
//!
//! SIZE is the chunk size, told first.

use crate::answer::Answer;
use crate::call::{Call, Message};
use crate::judged::Judged;
use std::io::{self, BufRead};

/// The packet that was written last.
struct Last {
    packet: Vec<u8>,
}

pub fn replay() -> io::Result<()> {
    let mut last = Last { packet: Vec::new() };
    for line in io::stdin().lock().lines() {
        let line = line?;
        if line.starts_with('#') {
            continue;
        }
        println!("{}", last.answer(&line).unwrap_or("bad line".to_string()));
    }
    Ok(())
}

impl Last {
    fn answer(&mut self, line: &str) -> Option<String> {
        let mut words = line.split(' ');
        let name = words.next()?;
        let numbers: Vec<u32> = words.map(|word| word.parse().ok()).collect::<Option<_>>()?;
        match (name, &numbers[..]) {
            ("encode", &[size, time, forced, length, out]) => {
                Some(self.encode(size, time, forced != 0, length, out))
            }
            ("decode", &[room, buffer, size, piece]) => {
                Some(self.decode(room, buffer, size, piece))
            }
            _ => None,
        }
    }

    fn encode(&mut self, size: u32, time: u32, forced: bool, length: u32, out: u32) -> String {
        let mut side = Judged::new();
        side.answer(&Call::EncoderSize { size, time: 0, out: 16 });
        let payload = (0..length).map(|i| (i % 251) as u8).collect();
        let message = Message { kind: 9, stream: 1, time, payload };
        let out = out as usize;
        let answer = side.answer(&Call::Encode { message, forced, droppable: false, out });
        self.packet.clear();
        if let Answer::Wrote(packet) = answer {
            self.packet = packet;
            return format!("wrote {} {:016x}", self.packet.len(), hash(&self.packet));
        }
        answer.to_string()
    }

    fn decode(&mut self, room: u32, buffer: u32, size: u32, piece: u32) -> String {
        let mut side = Judged::new();
        side.answer(&Call::NewDecoder { room });
        side.answer(&Call::DecoderSize { size });
        let (mut before, mut calls) = (0, 0);
        for part in self.packet.chunks(piece as usize) {
            calls += 1;
            match side.answer(&Call::Feed { buffer, piece: part.to_vec() }) {
                Answer::More { used } => before += used,
                Answer::Message { message: m, used } => {
                    let (length, sum) = (m.payload.len(), hash(&m.payload));
                    let used = before + used;
                    return format!(
                        "message {} {} {} {} used {} {:016x} calls {}",
                        m.kind, m.stream, m.time, length, used, sum, calls
                    );
                }
                Answer::RefusedFeed { number, used } => {
                    return format!("refused {} used {} calls {}", number, before + used, calls);
                }
                other => return other.to_string(),
            }
        }
        format!("more {} calls {}", before, calls)
    }
}

/// FNV-1a, 64 bits.
fn hash(bytes: &[u8]) -> u64 {
    bytes.iter().fold(14_695_981_039_346_656_037, |sum: u64, &byte| {
        (sum ^ u64::from(byte)).wrapping_mul(1_099_511_628_211)
    })
}
