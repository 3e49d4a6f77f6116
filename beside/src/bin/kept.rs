//! Prints the kept list of the crate's answers, one to a line, as `kept.rs` describes them.

use std::process::ExitCode;

use beside::inputs::{Share, SECTIONS};
use beside::kept::Keeper;
use beside::published;

fn main() -> ExitCode {
    published::hush_expected_panics();
    let share = Share {
        index: 0,
        of: 1,
        rounds: 2_000,
        seed: 7,
    };
    let mut keeper = Keeper::new(share.seed);
    for section in SECTIONS.iter().filter(|section| section.kept) {
        (section.show)(&mut keeper, &share);
    }
    for line in keeper.lines() {
        println!("{line}");
    }
    ExitCode::SUCCESS
}
