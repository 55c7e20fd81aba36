//! Ratios to the original that a run has stored. A file of them begins with the kind of machine; a line is a row's name, a tab
//! and its ratio.

use std::collections::HashMap;
use std::fs;

pub struct Stored {
    pub machine: String,
    ratios: HashMap<String, f64>,
}

pub fn read(path: &str) -> Result<Stored, String> {
    let text = fs::read_to_string(path).map_err(|error| format!("{path}: {error}"))?;
    let (machine, lines) = text.split_once('\n').unwrap_or((&text, ""));
    let ratio = |line: &str| {
        let (name, ratio) = line.split_once('\t')?;
        Some((name.to_string(), ratio.parse().ok()?))
    };
    let ratios: Option<HashMap<String, f64>> = lines.lines().map(ratio).collect();
    let ratios = ratios.ok_or_else(|| format!("{path}: a line is no name, tab and ratio"))?;
    Ok(Stored { machine: machine.to_string(), ratios })
}

pub fn write(path: &str, machine: &str, ratios: &[(String, f64)]) -> Result<(), String> {
    let mut text = format!("{machine}\n");
    for (name, ratio) in ratios {
        text += &format!("{name}\t{ratio:.2}\n");
    }
    fs::write(path, text).map_err(|error| format!("{path}: {error}"))
}

impl Stored {
    /// A line for each row that has lost a quarter or more.
    pub fn losses(&self, ratios: &[(String, f64)]) -> Vec<String> {
        let loss = |(name, now): &(String, f64)| {
            let before = *self.ratios.get(name)?;
            (*now <= 0.75 * before).then(|| format!("{name}: {now:.2}, stored {before:.2}"))
        };
        ratios.iter().filter_map(loss).collect()
    }
}
