//! Answers the day file on standard input with the fast book.

use std::process::ExitCode;

fn main() -> ExitCode {
    bench::streams::answer(bench::fast::answer_day)
}
