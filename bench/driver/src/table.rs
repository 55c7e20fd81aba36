//! The printed lines, tables of Markdown.

use crate::input::Mix;
use crate::rows::{pieces, Job, Row, Times, Wanted};

pub const HEAD: &str = "\
| job | pieces | chunk size | payload | streams | ours MB/s | original MB/s | copy MB/s | ours ns a message | ours/original | ours/copy | wanted |
|---|---|---|---|---|---|---|---|---|---|---|---|";

pub const BOTH_HEAD: &str = "\
| pieces | payload | in place | by value | original |
|---|---|---|---|---|";

/// What is wanted, and whether it is met.
fn verdict(row: &Row, times: &Times) -> (String, bool) {
    let (mut text, met) = match row.wanted() {
        Wanted::OfOriginal(least) => (format!("{least}"), times.original / times.ours >= least),
        Wanted::OfCopy(least) => (format!("{least} of copy"), times.copy / times.ours >= least),
    };
    if !met {
        text += ": short";
    }
    (text, met)
}

/// A row, and whether it has what is wanted.
pub fn line(row: &Row, times: &Times) -> (String, bool) {
    let speed = |nanoseconds: f64| 1000.0 * times.payload_bytes / nanoseconds;
    let (job, piece) = match row.job {
        Job::Encode => ("encode", "".to_string()),
        Job::Decode(piece) => ("decode", pieces(piece)),
    };
    let (wanted, met) = verdict(row, times);
    let text = format!(
        "| {job} | {piece} | {} | {} | {} | {:.0} | {:.0} | {:.0} | {:.1} | {:.2} | {:.2} | {wanted} |",
        row.size,
        row.width,
        row.streams,
        speed(times.ours),
        speed(times.original),
        speed(times.copy),
        times.ours / times.messages,
        times.original / times.ours,
        times.copy / times.ours,
    );
    (text, met)
}

/// Nanoseconds a message, in place, by value and by the original.
pub fn both_line(row: &Row, times: &[f64]) -> String {
    let Job::Decode(piece) = row.job else { return String::new() };
    let (piece, width) = (pieces(piece), row.width);
    format!("| {piece} | {width} | {:.1} | {:.1} | {:.1} |", times[0], times[1], times[2])
}

pub const SEARCH_HEAD: &str = "\
| streams | messages | in place | original | original/in place |
|---|---|---|---|---|";

pub fn search_line(streams: usize, mix: Mix, times: &[f64]) -> String {
    let on = match mix {
        Mix::MostlyLast => "nine in ten on the stream opened last",
        Mix::First => "all on the stream opened first",
    };
    format!("| {streams} | {on} | {:.1} | {:.1} | {:.2} |", times[0], times[1], times[1] / times[0])
}
