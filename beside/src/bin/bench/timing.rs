//! Medians of contenders that take turns.

use std::fmt::Write as _;
use std::hint::black_box;
use std::time::Instant;

/// How to time.
pub struct Options {
    /// How often each contender runs.
    pub runs: usize,
    /// Whether the caches are filled with other bytes before each run.
    pub cleared: bool,
}

/// One line of the table: what was timed, and each contender's median in nanoseconds.
pub struct Row {
    /// What was timed.
    pub name: String,
    /// The crate's median.
    pub published: f64,
    /// The port's, where this build has it.
    pub port: Option<f64>,
    /// The plain implementation's.
    pub plain: f64,
}

/// Something timed. It answers a number that tells whether it did the work.
pub type Contender<'a> = Box<dyn FnMut() -> u64 + 'a>;

/// More than the caches hold.
const CLEARING: usize = 64 << 20;

/// The medians of contenders that run in turn, each divided by `units`. All must answer alike.
fn medians(contenders: &mut [Contender<'_>], units: usize, options: &Options) -> Vec<f64> {
    let mut clearing = vec![0_u8; if options.cleared { CLEARING } else { 0 }];
    let mut times = vec![Vec::new(); contenders.len()];
    for run in 0..options.runs {
        let mut answers = Vec::new();
        for (contender, times) in contenders.iter_mut().zip(&mut times) {
            black_box(&mut clearing).fill(run as u8);
            let start = Instant::now();
            answers.push(black_box(contender()));
            times.push(start.elapsed().as_nanos() as f64 / units as f64);
        }
        assert!(
            answers.windows(2).all(|pair| pair[0] == pair[1]),
            "{answers:?}"
        );
    }
    times
        .into_iter()
        .map(|mut times| {
            times.sort_by(f64::total_cmp);
            times[times.len() / 2]
        })
        .collect()
}

/// Times the crate, the port if there is one, and the plain implementation.
pub fn row<'a>(
    name: impl Into<String>,
    units: usize,
    options: &Options,
    published: Contender<'a>,
    port: Option<Contender<'a>>,
    plain: Contender<'a>,
) -> Row {
    let has_port = port.is_some();
    let mut contenders: Vec<_> = [Some(published), port, Some(plain)]
        .into_iter()
        .flatten()
        .collect();
    let medians = medians(&mut contenders, units, options);
    Row {
        name: name.into(),
        published: medians[0],
        port: has_port.then(|| medians[1]),
        plain: medians[medians.len() - 1],
    }
}

fn in_words(nanoseconds: f64) -> String {
    match nanoseconds {
        n if n < 1e4 => format!("{n:.1} ns"),
        n if n < 1e7 => format!("{:.1} µs", n / 1e3),
        n => format!("{:.1} ms", n / 1e6),
    }
}

/// A ratio of times. One that would be rounded to nothing is said to be small instead.
fn ratio_in_words(ratio: f64) -> String {
    if ratio < 0.005 {
        return "under 0.01".into();
    }
    format!("{ratio:.2}")
}

/// The rows as a table in Markdown, with how they were timed.
pub fn table(rows: &[Row], options: &Options) -> String {
    let cleared = if options.cleared {
        "caches filled with other bytes before each run"
    } else {
        "buffers not cleared between runs"
    };
    let mut text = format!(
        "Medians of {} runs, contenders in turn, {cleared}. Ratios are to the crate's time: lower is better.\n\n\
         | what | crate | port | plain Rust | port / crate | plain / crate |\n|---|---|---|---|---|---|\n",
        options.runs
    );
    for row in rows {
        let ratio = |time: f64| ratio_in_words(time / row.published);
        let _ = writeln!(
            text,
            "| {} | {} | {} | {} | {} | {} |",
            row.name,
            in_words(row.published),
            row.port.map_or("–".into(), in_words),
            in_words(row.plain),
            row.port.map_or("–".into(), ratio),
            ratio(row.plain),
        );
    }
    text
}
