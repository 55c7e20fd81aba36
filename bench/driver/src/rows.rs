//! The rows of the tables: what is measured, and what is wanted of it.

use crate::clock::{best, Effort, Work};
use crate::input::{Input, Mix, ROOM};
use crate::ours::Lent;
use crate::tally::Tally;
use crate::{original, ours};
use std::hint::black_box;

/// In a timed run so few bytes go into the checksum that it costs next to nothing.
const FEW: usize = 1 << 20;

#[derive(Clone, Copy, PartialEq)]
pub enum Job {
    Encode,
    /// With pieces of so many bytes.
    Decode(usize),
}

pub const WHOLE: usize = usize::MAX;

pub fn pieces(piece: usize) -> String {
    if piece == WHOLE {
        return "whole".to_string();
    }
    piece.to_string()
}

#[derive(Clone, Copy)]
pub struct Row {
    pub job: Job,
    pub size: u32,
    pub width: usize,
    pub streams: usize,
}

/// Best times of a run in nanoseconds.
pub struct Times {
    pub messages: f64,
    pub payload_bytes: f64,
    pub ours: f64,
    pub original: f64,
    pub copy: f64,
}

pub fn all() -> Vec<Row> {
    let mut rows = Vec::new();
    for job in [Job::Encode, Job::Decode(1), Job::Decode(1460), Job::Decode(WHOLE)] {
        for size in [128, 4096, 65536] {
            for width in [16, 1000, 60000] {
                for streams in [1, 5] {
                    rows.push(Row { job, size, width, streams });
                }
            }
        }
    }
    rows
}

/// At least so many times the speed of the original, or of a plain copy.
#[derive(Clone, Copy)]
pub enum Wanted {
    OfOriginal(f64),
    OfCopy(f64),
}

impl Row {
    /// Where long payloads in long chunks are moved at once, a plain copy is the measure.
    pub fn wanted(&self) -> Wanted {
        let is_copy = self.width == 60000 && self.size >= 4096;
        match self.job {
            Job::Encode if is_copy => Wanted::OfCopy(0.95),
            Job::Encode => Wanted::OfOriginal(3.0),
            Job::Decode(1) => Wanted::OfOriginal(1.2),
            Job::Decode(WHOLE) if is_copy => Wanted::OfCopy(0.5),
            Job::Decode(_) if self.width == 16 || self.size == 128 => Wanted::OfOriginal(3.0),
            Job::Decode(_) => Wanted::OfOriginal(1.2),
        }
    }

    /// The row by what is measured, as the stored ratios name it.
    pub fn name(&self) -> String {
        let job = match self.job {
            Job::Encode => "encode".to_string(),
            Job::Decode(piece) => format!("decode {}", pieces(piece)),
        };
        format!("{job}, chunk size {}, payload {}, streams {}", self.size, self.width, self.streams)
    }

    /// Enough messages that making a decoder or an encoder does not count.
    fn messages(&self) -> usize {
        let bytes = if self.job == Job::Decode(1) { 100_000 } else { 1_200_000 };
        (bytes / self.width).clamp(5, 4000)
    }

    pub fn measure(&self, effort: Effort) -> Result<Times, String> {
        let input = Input::new(self.size, self.width, self.streams, self.messages());
        let times = match self.job {
            Job::Encode => encode(&input, effort)?,
            Job::Decode(piece) => decode(&input, piece, effort)?,
        };
        Ok(Times {
            messages: input.kinds.len() as f64,
            payload_bytes: input.payload_bytes() as f64,
            ours: times[0],
            original: times[1],
            copy: times[2],
        })
    }
}

/// Both sides must have counted the same.
pub fn agree(what: &str, ours: Tally, original: Tally) -> Result<(), String> {
    if ours == original {
        return Ok(());
    }
    Err(format!("{what}: the two sides differ: ours {ours:?}, the original {original:?}"))
}

fn encode(input: &Input, effort: Effort) -> Result<Vec<f64>, String> {
    let mut output = vec![0; 2 * ROOM as usize];
    let messages = original::messages(input);
    for every in [1, FEW] {
        let theirs = original::encode(input.size, &messages, every);
        agree("encode", ours::encode(input, every, &mut output), theirs)?;
    }
    let mut copied = vec![0; input.width];
    let mut works: [Work; 3] = [
        Box::new(|| {
            black_box(ours::encode(input, FEW, &mut output));
        }),
        Box::new(|| {
            black_box(original::encode(input.size, &messages, FEW));
        }),
        Box::new(|| copy(input, &mut copied)),
    ];
    Ok(best(effort, &mut works))
}

fn decode(input: &Input, piece: usize, effort: Effort) -> Result<Vec<f64>, String> {
    let (mut lent, mut payload) = (Lent::new(), vec![0; ROOM as usize]);
    for every in [1, FEW] {
        let theirs = original::decode(input, piece, every);
        agree("decode", ours::decode(&mut lent, input, piece, every, &mut payload), theirs)?;
    }
    let mut copied = vec![0; input.width];
    let mut works: [Work; 3] = [
        Box::new(|| {
            black_box(ours::decode(&mut lent, input, piece, FEW, &mut payload));
        }),
        Box::new(|| {
            black_box(original::decode(input, piece, FEW));
        }),
        Box::new(|| copy(input, &mut copied)),
    ];
    Ok(best(effort, &mut works))
}

/// The payloads alone, each copied to the same buffer.
fn copy(input: &Input, to: &mut [u8]) {
    for payload in input.source.chunks_exact(input.width) {
        to.copy_from_slice(black_box(payload));
        black_box(&mut *to);
    }
}

/// The rows for which the decoder in place and the calls by value stand side by side.
pub fn both_forms() -> Vec<Row> {
    let mut rows = Vec::new();
    for piece in [1, 1460, WHOLE] {
        for width in [16, 1000, 60000] {
            rows.push(Row { job: Job::Decode(piece), size: 4096, width, streams: 1 });
        }
    }
    rows
}

/// In place, by value and by the original, in nanoseconds a message.
pub fn measure_both(row: &Row, effort: Effort) -> Result<Vec<f64>, String> {
    let Job::Decode(piece) = row.job else { return Err("both forms are a decoder's".to_string()) };
    let input = Input::new(row.size, row.width, row.streams, row.messages());
    let (mut lent, mut payload) = (Lent::new(), vec![0; ROOM as usize]);
    let mut other = payload.clone();
    let theirs = original::decode(&input, piece, 1);
    agree("decode", ours::decode(&mut lent, &input, piece, 1, &mut payload), theirs)?;
    agree("decode by value", ours::decode_by_value(&input, piece, 1, &mut other), theirs)?;
    let mut works: [Work; 3] = [
        Box::new(|| {
            black_box(ours::decode(&mut lent, &input, piece, FEW, &mut payload));
        }),
        Box::new(|| {
            black_box(ours::decode_by_value(&input, piece, FEW, &mut other));
        }),
        Box::new(|| {
            black_box(original::decode(&input, piece, FEW));
        }),
    ];
    let count = input.kinds.len() as f64;
    Ok(best(effort, &mut works).iter().map(|time| time / count).collect())
}

/// Small messages on many streams, where the search for a row counts: how many streams, and which.
pub fn searches() -> [(usize, Mix); 4] {
    [(5, Mix::MostlyLast), (64, Mix::MostlyLast), (5, Mix::First), (64, Mix::First)]
}

/// In place and by the original, in nanoseconds a message.
pub fn measure_search(streams: usize, mix: Mix, effort: Effort) -> Result<Vec<f64>, String> {
    let input = Input::on_streams(16, streams, mix, 4000);
    let times = decode(&input, WHOLE, effort)?;
    let count = input.kinds.len() as f64;
    Ok(times.iter().take(2).map(|time| time / count).collect())
}
