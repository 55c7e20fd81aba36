//! The calls of the script language: what a line says.

/// A line may be this long, its end not counted.
const LONGEST_LINE: usize = 262_144;
/// The most output that may be lent (OUT).
const MOST_OUTPUT: u32 = 131_072;
/// The most payload buffer that may be lent (BUFFER).
const MOST_BUFFER: u32 = 262_144;

#[derive(Clone, Copy)]
pub enum ClockOp {
    Add,
    Sub,
    Set,
    Compare,
    Distance,
}

/// A user control event with exactly its numbers.
#[derive(Clone, Copy)]
pub enum Event {
    Begin(u32),
    End(u32),
    Dry(u32),
    Buffer(u32, u32),
    Recorded(u32),
    Ping(u32),
    Pong(u32),
    Empty(u32),
    Ready(u32),
}

/// A message as both ends see it.
#[derive(Clone)]
pub struct Message {
    pub kind: u8,
    pub stream: u32,
    pub time: u32,
    pub payload: Vec<u8>,
}

pub enum Call {
    Clock { op: ClockOp, a: u32, b: u32 },
    ReadControl { body: Vec<u8> },
    WriteControl { event: Event, out: usize },
    NewEncoder,
    Encode { message: Message, forced: bool, droppable: bool, out: usize },
    EncoderSize { size: u32, time: u32, out: usize },
    EncodedLength { message: Message, forced: bool },
    AskEncoderSize,
    NewDecoder { room: u32 },
    Feed { buffer: u32, piece: Vec<u8> },
    DecoderSize { size: u32 },
    AskDecoderSize,
}

pub enum Line {
    Skipped,
    Bad,
    Call(Call),
}

/// Reads one line, its LF taken off already.
pub fn read_line(line: &[u8]) -> Line {
    if line.len() > LONGEST_LINE {
        return Line::Bad;
    }
    if line.is_empty() || line[0] == b'#' {
        return Line::Skipped;
    }
    read_call(line).map_or(Line::Bad, Line::Call)
}

fn read_call(line: &[u8]) -> Option<Call> {
    // A leading, trailing or double space gives an empty word, and no word of any call is empty.
    let words: Vec<&[u8]> = line.split(|&b| b == b' ').collect();
    match words[..] {
        [b"time", op, a, b] => read_clock(op, a, b),
        [b"control", b"read", body] => Some(Call::ReadControl { body: bytes(body)? }),
        [b"control", b"write", ref rest @ ..] => read_control_write(rest),
        [b"enc", b"new"] => Some(Call::NewEncoder),
        [b"enc", b"msg", ref rest @ ..] => read_encode(rest),
        [b"enc", b"size", size, time, out] => {
            Some(Call::EncoderSize { size: number(size)?, time: number(time)?, out: output(out)? })
        }
        [b"enc", b"length", ref rest @ ..] => read_length(rest),
        [b"enc", b"size?"] => Some(Call::AskEncoderSize),
        [b"dec", b"new", room] => Some(Call::NewDecoder { room: number(room)? }),
        [b"dec", b"feed", buffer, piece] => {
            Some(Call::Feed { buffer: number_up_to(MOST_BUFFER, buffer)?, piece: bytes(piece)? })
        }
        [b"dec", b"size", size] => Some(Call::DecoderSize { size: number(size)? }),
        [b"dec", b"size?"] => Some(Call::AskDecoderSize),
        _ => None,
    }
}

fn read_clock(op: &[u8], a: &[u8], b: &[u8]) -> Option<Call> {
    let op = match op {
        b"add" => ClockOp::Add,
        b"sub" => ClockOp::Sub,
        b"set" => ClockOp::Set,
        b"cmp" => ClockOp::Compare,
        b"distance" => ClockOp::Distance,
        _ => return None,
    };
    Some(Call::Clock { op, a: number(a)?, b: number(b)? })
}

fn read_control_write(words: &[&[u8]]) -> Option<Call> {
    let (event, out) = match *words {
        [b"buffer", stream, length, out] => (Event::Buffer(number(stream)?, number(length)?), out),
        [name, n, out] => (event_of_one_number(name, number(n)?)?, out),
        _ => return None,
    };
    Some(Call::WriteControl { event, out: output(out)? })
}

fn event_of_one_number(name: &[u8], n: u32) -> Option<Event> {
    match name {
        b"begin" => Some(Event::Begin(n)),
        b"end" => Some(Event::End(n)),
        b"dry" => Some(Event::Dry(n)),
        b"recorded" => Some(Event::Recorded(n)),
        b"ping" => Some(Event::Ping(n)),
        b"pong" => Some(Event::Pong(n)),
        b"empty" => Some(Event::Empty(n)),
        b"ready" => Some(Event::Ready(n)),
        _ => None,
    }
}

fn read_encode(words: &[&[u8]]) -> Option<Call> {
    match *words {
        [kind, stream, time, forced, droppable, out, payload] => Some(Call::Encode {
            message: read_message(kind, stream, time, payload)?,
            forced: flag(forced)?,
            droppable: flag(droppable)?,
            out: output(out)?,
        }),
        _ => None,
    }
}

/// Whether a message may be dropped changes nothing of its own packet.
fn read_length(words: &[&[u8]]) -> Option<Call> {
    match *words {
        [kind, stream, time, forced, droppable, payload] => {
            flag(droppable)?;
            let message = read_message(kind, stream, time, payload)?;
            Some(Call::EncodedLength { message, forced: flag(forced)? })
        }
        _ => None,
    }
}

fn read_message(kind: &[u8], stream: &[u8], time: &[u8], payload: &[u8]) -> Option<Message> {
    Some(Message {
        kind: number_up_to(255, kind)? as u8,
        stream: number(stream)?,
        time: number(time)?,
        payload: bytes(payload)?,
    })
}

fn number(word: &[u8]) -> Option<u32> {
    number_up_to(u32::MAX, word)
}

fn output(word: &[u8]) -> Option<usize> {
    number_up_to(MOST_OUTPUT, word).map(|n| n as usize)
}

fn flag(word: &[u8]) -> Option<bool> {
    number_up_to(1, word).map(|n| n == 1)
}

/// Digits with no leading zero but `0` itself.
fn number_up_to(most: u32, word: &[u8]) -> Option<u32> {
    let plain = !word.is_empty() && word.iter().all(u8::is_ascii_digit);
    if !plain || (word[0] == b'0' && word.len() > 1) {
        return None;
    }
    let n: u32 = std::str::from_utf8(word).ok()?.parse().ok()?;
    (n <= most).then_some(n)
}

/// An even number of hex digits of either case, or `-` for none.
fn bytes(word: &[u8]) -> Option<Vec<u8>> {
    if word == b"-" {
        return Some(Vec::new());
    }
    if word.is_empty() || word.len() % 2 != 0 {
        return None;
    }
    word.chunks(2).map(|pair| Some(hex_digit(pair[0])? * 16 + hex_digit(pair[1])?)).collect()
}

fn hex_digit(digit: u8) -> Option<u8> {
    (digit as char).to_digit(16).map(|n| n as u8)
}
