//! Answers a script of calls, read on standard input, by the original Rust.
//!
//!     driver           the original; document 01 decides what is refused
//!     driver --raw     the original alone, whatever document 01 says of the call
//!     driver --table   document 01 alone, as read in table.rs
//!     driver --large   the original, on the longer calls of large.rs

mod answer;
mod call;
mod judged;
mod large;
mod original;
mod table;

use crate::answer::Answer;
use crate::call::{read_line, Call, Line};
use crate::judged::Judged;
use crate::original::Original;
use crate::table::Table;
use std::io::{self, BufRead, Write};
use std::process::exit;

fn main() {
    let option = std::env::args().nth(1).unwrap_or_default();
    let done = match option.as_str() {
        "" => replay_with(Judged::new(), Judged::answer),
        "--raw" => replay_with(Original::new(), Original::answer),
        "--table" => replay_with(Table::new(), Table::answer),
        "--large" => large::replay(),
        _ => {
            eprintln!("usage: driver [--raw | --table | --large] < SCRIPT");
            exit(2)
        }
    };
    if let Err(error) = done {
        eprintln!("driver: {}", error);
        exit(1)
    }
}

/// Answers line by line. Each answer is written out at once, so that a program may hold a
/// conversation with the driver.
fn replay_with<S>(mut side: S, answer: fn(&mut S, &Call) -> Answer) -> io::Result<()> {
    let (mut input, mut output) = (io::stdin().lock(), io::stdout().lock());
    let mut line = Vec::new();
    for number in 1.. {
        line.clear();
        if input.read_until(b'\n', &mut line)? == 0 {
            break;
        }
        if line.last() == Some(&b'\n') {
            line.pop();
        }
        match read_line(&line) {
            Line::Skipped => (),
            Line::Call(call) => writeln!(output, "{}", answer(&mut side, &call))?,
            Line::Bad => {
                writeln!(output, "bad line {}", number)?;
                break;
            }
        }
        output.flush()?;
    }
    Ok(())
}
