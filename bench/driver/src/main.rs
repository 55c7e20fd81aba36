//! Runs our codec, the original and a plain copy on the same inputs, and prints how fast each was.

mod clock;
mod input;
mod original;
mod ours;
mod rows;
mod stored;
mod table;
mod tally;

use clock::Effort;
use std::process::ExitCode;
use std::time::Duration;

const USAGE: &str = "usage: bench_driver ROUNDS MACHINE RATIOS [--store]";

/// How long a timing lasts at least.
const LEAST: Duration = Duration::from_millis(2);

/// What bench/run says.
struct Order {
    effort: Effort,
    /// The kind of this machine.
    machine: String,
    /// The file of stored ratios, and whether this run's are to be stored there.
    ratios: String,
    is_stored: bool,
}

fn main() -> ExitCode {
    let Some(order) = order() else {
        eprintln!("{USAGE}");
        return ExitCode::from(2);
    };
    match run(&order) {
        Ok(()) => ExitCode::SUCCESS,
        Err(error) => {
            eprintln!("bench/run: {error}");
            ExitCode::FAILURE
        }
    }
}

fn order() -> Option<Order> {
    let words: Vec<String> = std::env::args().skip(1).collect();
    let is_stored = match words.get(3).map(String::as_str) {
        None => false,
        Some("--store") if words.len() == 4 => true,
        Some(_) => return None,
    };
    let rounds: u32 = words.first()?.parse().ok()?;
    let effort = Effort { rounds: rounds.max(1), least: LEAST };
    Some(Order { effort, machine: words.get(1)?.clone(), ratios: words.get(2)?.clone(), is_stored })
}

fn run(order: &Order) -> Result<(), String> {
    let ratios = main_table(order.effort)?;
    both_forms(order.effort)?;
    searches(order.effort)?;
    println!("\nBoth sides agreed on every count and checksum.");
    if order.is_stored {
        return stored::write(&order.ratios, &order.machine, &ratios);
    }
    compare(order, &ratios)
}

/// Prints each row, and answers its ratio to the original.
fn main_table(effort: Effort) -> Result<Vec<(String, f64)>, String> {
    println!("\n{}", table::HEAD);
    let (mut ratios, mut short) = (Vec::new(), 0);
    for row in rows::all() {
        let times = row.measure(effort)?;
        let (line, met) = table::line(&row, &times);
        println!("{line}");
        short += usize::from(!met);
        ratios.push((row.name(), times.original / times.ours));
    }
    println!("\nMB/s: millions of payload bytes a second, the best of {} timings.", effort.rounds);
    println!("Our buffers are lent once and cleared by nobody; the original makes its own for each message.");
    let all = ratios.len();
    println!("{all} rows, {} have what is wanted, {short} fall short", all - short);
    Ok(ratios)
}

fn both_forms(effort: Effort) -> Result<(), String> {
    println!("\n{}", table::BOTH_HEAD);
    for row in rows::both_forms() {
        println!("{}", table::both_line(&row, &rows::measure_both(&row, effort)?));
    }
    println!("\nNanoseconds a message, decoded, of one stream in chunks of 4096.");
    Ok(())
}

fn searches(effort: Effort) -> Result<(), String> {
    println!("\n{}", table::SEARCH_HEAD);
    for (streams, mix) in rows::searches() {
        println!("{}", table::search_line(streams, mix, &rows::measure_search(streams, mix, effort)?));
    }
    println!("\nNanoseconds a message of 16 bytes, decoded whole.");
    Ok(())
}

/// Names each row that has lost a quarter of its stored ratio.
fn compare(order: &Order, ratios: &[(String, f64)]) -> Result<(), String> {
    let stored = stored::read(&order.ratios)?;
    if stored.machine != order.machine {
        println!(
            "The stored ratios are of another machine, {}; this is {}. They depend on it.",
            stored.machine, order.machine
        );
    }
    let losses = stored.losses(ratios);
    println!("{} rows have lost a quarter of their stored ratio to the original", losses.len());
    for loss in losses {
        println!("  {loss}");
    }
    Ok(())
}
