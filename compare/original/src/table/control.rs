//! "User control bodies": a two-byte code, then big-endian numbers.

use crate::call::Event;

/// How many numbers of four bytes follow a known code.
fn numbers_after(code: u16) -> Option<usize> {
    match code {
        0 | 1 | 2 | 4 | 6 | 7 | 31 | 32 => Some(1),
        3 => Some(2),
        _ => None,
    }
}

/// 15 for a body under two bytes, or of a known code and too short; 16 for an unknown code,
/// whatever follows it. Bytes after the body are ignored.
pub fn read(body: &[u8]) -> Result<Event, u8> {
    if body.len() < 2 {
        return Err(15);
    }
    let code = u16::from_be_bytes([body[0], body[1]]);
    let numbers = numbers_after(code).ok_or(16)?;
    if body.len() < 2 + 4 * numbers {
        return Err(15);
    }
    let number = |i: usize| big_endian(&body[2 + 4 * i..6 + 4 * i]);
    Ok(match code {
        0 => Event::Begin(number(0)),
        1 => Event::End(number(0)),
        2 => Event::Dry(number(0)),
        3 => Event::Buffer(number(0), number(1)),
        4 => Event::Recorded(number(0)),
        6 => Event::Ping(number(0)),
        7 => Event::Pong(number(0)),
        31 => Event::Empty(number(0)),
        _ => Event::Ready(number(0)),
    })
}

/// "Writing needs 6 or 10 bytes of output, else 5."
pub fn write(event: Event, out: usize) -> Result<Vec<u8>, u8> {
    let (code, numbers): (u16, Vec<u32>) = match event {
        Event::Begin(stream) => (0, vec![stream]),
        Event::End(stream) => (1, vec![stream]),
        Event::Dry(stream) => (2, vec![stream]),
        Event::Buffer(stream, length) => (3, vec![stream, length]),
        Event::Recorded(stream) => (4, vec![stream]),
        Event::Ping(time) => (6, vec![time]),
        Event::Pong(time) => (7, vec![time]),
        Event::Empty(stream) => (31, vec![stream]),
        Event::Ready(stream) => (32, vec![stream]),
    };
    let mut body = code.to_be_bytes().to_vec();
    for number in numbers {
        body.extend_from_slice(&number.to_be_bytes());
    }
    if out < body.len() {
        return Err(5);
    }
    Ok(body)
}

fn big_endian(bytes: &[u8]) -> u32 {
    bytes.iter().fold(0, |n, &b| n << 8 | u32::from(b))
}
