//! `generate SEED` writes the day file of a seed.

use std::io::Write;
use std::process::ExitCode;

fn main() -> ExitCode {
    let Some(seed) = std::env::args().nth(1).and_then(|seed| seed.parse().ok()) else {
        eprintln!("generate SEED");
        return ExitCode::from(2);
    };
    match std::io::stdout().write_all(&bench::generate::day_of(seed)) {
        Ok(()) => ExitCode::SUCCESS,
        Err(error) => {
            eprintln!("{error}");
            ExitCode::FAILURE
        }
    }
}
