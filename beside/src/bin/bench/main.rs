//! Times the crate, the port and the plain implementation on the same bytes, in turn, in one run.
//!
//! `bench [--runs N] [--cleared]` prints medians, the ratios to the crate, and a table for docs/SPEED.md.

mod bodies;
mod messages;
mod skips;
mod texts;
mod timing;

use timing::{table, Options, Row};

fn options() -> Result<Options, String> {
    let mut options = Options {
        runs: 31,
        cleared: false,
    };
    let mut words = std::env::args().skip(1);
    while let Some(word) = words.next() {
        match word.as_str() {
            "--runs" => {
                let runs = words.next().and_then(|value| value.parse().ok());
                options.runs = runs.ok_or("--runs wants a number")?;
            }
            "--cleared" => options.cleared = true,
            _ => return Err(format!("no such argument: {word}")),
        }
    }
    Ok(options)
}

fn main() -> Result<(), String> {
    let options = options()?;
    let rows: Vec<Row> = skips::rows(&options)
        .into_iter()
        .chain(messages::rows(&options))
        .chain(texts::rows(&options))
        .collect();
    print!("{}", table(&rows, &options));
    Ok(())
}
