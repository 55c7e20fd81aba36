//! Our side: each run is one call into the proved code.

use crate::input::{Input, ROOM};
use crate::tally::Tally;

extern "C" {
    fn bench_decode(
        held: *mut u32,
        rows: *mut u32,
        room: u32,
        size: u32,
        input: *const u8,
        input_len: usize,
        piece: usize,
        every: usize,
        payload: *mut u8,
        payload_len: usize,
        report: *mut u64,
    );
    fn bench_decode_by_value(
        room: u32,
        size: u32,
        input: *const u8,
        input_len: usize,
        piece: usize,
        every: usize,
        payload: *mut u8,
        payload_len: usize,
        report: *mut u64,
    );
    fn bench_encode(
        size: u32,
        kinds: *const u8,
        kinds_len: usize,
        times: *const u32,
        times_len: usize,
        source: *const u8,
        source_len: usize,
        width: usize,
        every: usize,
        output: *mut u8,
        output_len: usize,
        report: *mut u64,
    );
}

/// What our code tells: messages, calls, bytes, checksum.
fn tally(report: [u64; 4]) -> Tally {
    Tally { messages: report[0], bytes: report[2], sum: report[3] }
}

/// What a decoder is held in.
pub struct Lent {
    held: [u32; 24],
    rows: [u32; 385],
}

impl Lent {
    pub fn new() -> Lent {
        Lent { held: [0; 24], rows: [0; 385] }
    }
}

/// By the decoder in place.
pub fn decode(
    lent: &mut Lent,
    input: &Input,
    piece: usize,
    every: usize,
    payload: &mut [u8],
) -> Tally {
    let (wire, mut report) = (&input.wire, [0u64; 4]);
    // The slices are whole and nothing overlaps; the arrays have as many numbers as the callee says.
    unsafe {
        bench_decode(
            lent.held.as_mut_ptr(),
            lent.rows.as_mut_ptr(),
            ROOM,
            input.size,
            wire.as_ptr(),
            wire.len(),
            piece,
            every,
            payload.as_mut_ptr(),
            payload.len(),
            report.as_mut_ptr(),
        )
    };
    tally(report)
}

/// By the calls that take a decoder by value and hand it back.
pub fn decode_by_value(input: &Input, piece: usize, every: usize, payload: &mut [u8]) -> Tally {
    let (wire, mut report) = (&input.wire, [0u64; 4]);
    // As above.
    unsafe {
        bench_decode_by_value(
            ROOM,
            input.size,
            wire.as_ptr(),
            wire.len(),
            piece,
            every,
            payload.as_mut_ptr(),
            payload.len(),
            report.as_mut_ptr(),
        )
    };
    tally(report)
}

pub fn encode(input: &Input, every: usize, output: &mut [u8]) -> Tally {
    let (kinds, times, source) = (&input.kinds, &input.times, &input.source);
    let mut report = [0u64; 4];
    // As above.
    unsafe {
        bench_encode(
            input.size,
            kinds.as_ptr(),
            kinds.len(),
            times.as_ptr(),
            times.len(),
            source.as_ptr(),
            source.len(),
            input.width,
            every,
            output.as_mut_ptr(),
            output.len(),
            report.as_mut_ptr(),
        );
    }
    tally(report)
}
