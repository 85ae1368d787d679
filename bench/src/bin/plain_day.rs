//! Answers the day file on standard input with the plain book.

use std::process::ExitCode;

fn main() -> ExitCode {
    bench::streams::answer(bench::plain::answer_day)
}
