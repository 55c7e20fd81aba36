//! What is encoded and decoded.

use crate::original;

/// The longest message that our decoder takes.
pub const ROOM: u32 = 65536;

pub struct Input {
    pub size: u32,
    pub width: usize,
    pub kinds: Vec<u8>,
    pub times: Vec<u32>,
    /// The payloads, one after the other.
    pub source: Vec<u8>,
    /// The packets, one after the other.
    pub wire: Vec<u8>,
}

/// Message types of chunk streams 4, 3, 5, 2 and 6.
const KINDS: [u8; 5] = [9, 18, 8, 4, 20];

impl Input {
    pub fn new(size: u32, width: usize, streams: usize, count: usize) -> Input {
        let mut input = Input {
            size,
            width,
            kinds: (0..count).map(|i| KINDS[i % streams]).collect(),
            times: (0..count).map(time).collect(),
            source: noise(width * count),
            wire: Vec::new(),
        };
        input.wire = original::wire(&input);
        input
    }

    /// Messages on so many chunk streams: each is opened by a type 0, and then all go by type 3.
    pub fn on_streams(width: usize, streams: usize, mix: Mix, count: usize) -> Input {
        let all = streams + count;
        let mut input = Input {
            size: 4096,
            width,
            kinds: vec![9; all],
            times: Vec::new(),
            source: noise(width * all),
            wire: Vec::new(),
        };
        for (i, payload) in input.source.chunks_exact(width).enumerate() {
            if i < streams {
                basic_header(&mut input.wire, 0, id_of(streams, i));
                input.wire.extend([0, 0, 0]);
                input.wire.extend(&(width as u32).to_be_bytes()[1..]);
                input.wire.extend([9, 1, 0, 0, 0]);
            } else {
                basic_header(&mut input.wire, 3, id_of(streams, mix.stream(streams, i - streams)));
            }
            input.wire.extend(payload);
        }
        input
    }

    pub fn payload_bytes(&self) -> usize {
        self.source.len()
    }
}

/// On which stream a message is, once all are opened.
#[derive(Clone, Copy)]
pub enum Mix {
    /// Nine in ten on the stream opened last, the others in turn.
    MostlyLast,
    /// All on the stream opened first.
    First,
}

impl Mix {
    fn stream(self, streams: usize, i: usize) -> usize {
        match self {
            Mix::MostlyLast if i % 10 == 9 => i / 10 % (streams - 1),
            Mix::MostlyLast => streams - 1,
            Mix::First => 0,
        }
    }
}

/// The chunk stream that is opened at this place: from 2 on, those of a longer basic header straight after the first.
fn id_of(streams: usize, place: usize) -> usize {
    let long = streams.saturating_sub(62);
    match place {
        0 => 2,
        _ if place <= long => 63 + place,
        _ => place + 2 - long,
    }
}

fn basic_header(wire: &mut Vec<u8>, kind: u8, id: usize) {
    if id < 64 {
        wire.push(kind << 6 | id as u8);
    } else {
        wire.extend([kind << 6, (id - 64) as u8]);
    }
}

/// A little uneven, so that headers of types 2 and 3 both come.
fn time(i: usize) -> u32 {
    (i * 20 + i % 3) as u32
}

/// Bytes without a pattern, the same in every run.
fn noise(count: usize) -> Vec<u8> {
    let mut x = 88172645463325252u64;
    let mut next = || {
        x ^= x << 13;
        x ^= x >> 7;
        x ^= x << 17;
        (x >> 32) as u8
    };
    (0..count).map(|_| next()).collect()
}
