//! The answers of the script language: what is printed for a call.

use crate::call::{Event, Message};
use std::cmp::Ordering;
use std::fmt;

pub enum Answer {
    Ok,
    Timestamp(u32),
    Order(Ordering),
    Distance(i64),
    Event(Event),
    Wrote(Vec<u8>),
    Length(usize),
    Size(u32),
    Message {
        message: Message,
        used: usize,
    },
    More {
        used: usize,
    },
    /// A refusal of a call that counts no bytes.
    Refused(u8),
    /// A refusal of a feed, which counts them.
    RefusedFeed {
        number: u8,
        used: usize,
    },
    /// What no script answer foresees: the original did not do what document 01 says of it.
    Original(Surprise),
}

/// How the original can fail to answer.
pub enum Surprise {
    Panicked,
    Failed(String),
    /// It took what document 01 says that it refuses too.
    Accepted,
    /// It would never come back, so it was not asked.
    NeverReturns,
}

impl fmt::Display for Answer {
    fn fmt(&self, f: &mut fmt::Formatter) -> fmt::Result {
        match self {
            Answer::Ok => write!(f, "ok"),
            Answer::Timestamp(value) => write!(f, "{}", value),
            Answer::Order(order) => write!(f, "{}", order_word(*order)),
            Answer::Distance(distance) => write!(f, "{}", distance),
            Answer::Event(event) => write!(f, "{}", event),
            Answer::Wrote(bytes) => write!(f, "wrote {} {}", bytes.len(), hex(bytes)),
            Answer::Length(length) => write!(f, "length {}", length),
            Answer::Size(size) => write!(f, "size {}", size),
            Answer::Message { message: m, used } => write!(
                f,
                "message {} {} {} {} used {} {}",
                m.kind,
                m.stream,
                m.time,
                m.payload.len(),
                used,
                hex(&m.payload)
            ),
            Answer::More { used } => write!(f, "more {}", used),
            Answer::Refused(number) => write!(f, "refused {}", number),
            Answer::RefusedFeed { number, used } => write!(f, "refused {} used {}", number, used),
            Answer::Original(surprise) => write!(f, "original {}", surprise),
        }
    }
}

impl fmt::Display for Event {
    fn fmt(&self, f: &mut fmt::Formatter) -> fmt::Result {
        match *self {
            Event::Begin(stream) => write!(f, "begin {}", stream),
            Event::End(stream) => write!(f, "end {}", stream),
            Event::Dry(stream) => write!(f, "dry {}", stream),
            Event::Buffer(stream, length) => write!(f, "buffer {} {}", stream, length),
            Event::Recorded(stream) => write!(f, "recorded {}", stream),
            Event::Ping(time) => write!(f, "ping {}", time),
            Event::Pong(time) => write!(f, "pong {}", time),
            Event::Empty(stream) => write!(f, "empty {}", stream),
            Event::Ready(stream) => write!(f, "ready {}", stream),
        }
    }
}

impl fmt::Display for Surprise {
    fn fmt(&self, f: &mut fmt::Formatter) -> fmt::Result {
        match self {
            Surprise::Panicked => write!(f, "panicked"),
            Surprise::Failed(why) => write!(f, "failed: {}", why),
            Surprise::Accepted => write!(f, "accepted"),
            Surprise::NeverReturns => write!(f, "never returns"),
        }
    }
}

fn order_word(order: Ordering) -> &'static str {
    match order {
        Ordering::Less => "earlier",
        Ordering::Equal => "same",
        Ordering::Greater => "later",
    }
}

fn hex(bytes: &[u8]) -> String {
    const DIGITS: &[u8; 16] = b"0123456789abcdef";
    if bytes.is_empty() {
        return "-".to_string();
    }
    let mut text = String::with_capacity(2 * bytes.len());
    for byte in bytes {
        text.push(DIGITS[usize::from(byte >> 4)] as char);
        text.push(DIGITS[usize::from(byte & 15)] as char);
    }
    text
}
