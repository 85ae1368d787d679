//! From standard input to standard output.

use crate::terms::MAX_FILE;
use std::io::{self, Read, Write};
use std::process::ExitCode;

/// Answers the day on standard input; of a file that is too long no more is read than shows that it is.
pub fn answer(answer_day: fn(&[u8]) -> Vec<u8>) -> ExitCode {
    match answer_or_error(answer_day) {
        Ok(()) => ExitCode::SUCCESS,
        Err(error) => {
            eprintln!("{error}");
            ExitCode::FAILURE
        }
    }
}

fn answer_or_error(answer_day: fn(&[u8]) -> Vec<u8>) -> io::Result<()> {
    let mut day = Vec::with_capacity(MAX_FILE + 1);
    io::stdin().lock().take(MAX_FILE as u64 + 1).read_to_end(&mut day)?;
    let mut output = io::stdout().lock();
    output.write_all(&answer_day(&day))?;
    output.flush()
}
