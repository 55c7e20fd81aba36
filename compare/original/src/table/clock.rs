//! "The clock": unsigned 32-bit milliseconds that wrap.

use crate::answer::Answer;
use crate::call::ClockOp;
use std::cmp::Ordering;

/// How many timestamps there are.
const ROUND: u64 = 1 << 32;

pub fn answer(op: ClockOp, a: u32, b: u32) -> Answer {
    match op {
        ClockOp::Add => Answer::Timestamp(add(a, b)),
        ClockOp::Sub => Answer::Timestamp(subtract(a, b)),
        ClockOp::Set => Answer::Timestamp(b),
        ClockOp::Compare => Answer::Order(compare(a, b)),
        ClockOp::Distance => Answer::Distance(distance(a, b)),
    }
}

pub fn add(a: u32, b: u32) -> u32 {
    ((u64::from(a) + u64::from(b)) % ROUND) as u32
}

pub fn subtract(a: u32, b: u32) -> u32 {
    ((u64::from(a) + ROUND - u64::from(b)) % ROUND) as u32
}

/// "Two timestamps that differ as plain numbers by at most 2147483647 compare as numbers; beyond
/// that the order is reversed."
fn compare(a: u32, b: u32) -> Ordering {
    let apart = (i64::from(a) - i64::from(b)).abs();
    if apart <= 2_147_483_647 {
        a.cmp(&b)
    } else {
        b.cmp(&a)
    }
}

/// "Second minus first where that is within 2147483647, else that plus or minus 4294967296 so that
/// the later one is positive."
fn distance(first: u32, second: u32) -> i64 {
    let plain = i64::from(second) - i64::from(first);
    if plain.abs() <= 2_147_483_647 {
        return plain;
    }
    match compare(first, second) {
        Ordering::Less => plain + ROUND as i64,
        _ => plain - ROUND as i64,
    }
}
