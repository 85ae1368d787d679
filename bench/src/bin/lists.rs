//! `lists BOOK SCENARIO SIZE COUNT` makes COUNT books of SIZE orders, each of its own seed, and runs the list of each
//! without the operation of the scenario after it and with it, so that a profiler can count the instructions of
//! `without_operation` and `with_operation`. Its exit status is 1 if the fast book answers one of the lists differently.

use bench::books::{Book, BOOKS};
use bench::calls::{Answer, Best, Call, Fill, DONE};
use bench::scenarios::{operation, List, Scenario};
use bench::terms::MAX_ORDERS;
use std::process::ExitCode;

fn main() -> ExitCode {
    let arguments: Vec<String> = std::env::args().skip(1).collect();
    let [book, scenario, size, count] = arguments.as_slice() else {
        eprintln!("lists BOOK SCENARIO SIZE COUNT");
        return ExitCode::from(2);
    };
    let found = BOOKS.iter().find(|known| known.name == book).zip(Scenario::named(scenario));
    let (Some((book, of)), Ok(size), Ok(count)) = (found, size.parse(), count.parse()) else {
        eprintln!("no such book or scenario, or no number");
        return ExitCode::from(2);
    };
    let cases: Vec<List> = (0..count).map(|seed| operation(of, size, seed)).collect();
    let mut lists = Lists::new(book, &cases, scenario == "best");
    // Each list is run uncounted before, so that the allocator has at hand what it asks for.
    cases.iter().for_each(|case| _ = lists.run(&case.calls));
    for case in &cases {
        lists.run(&case.calls[..case.before]);
        without_operation(&mut lists, case);
        lists.run(&case.calls);
        with_operation(&mut lists, case);
    }
    let fast = BOOKS.iter().find(|known| known.name == "fast").expect("the fast book");
    let mut compared = Lists::new(fast, &cases, scenario == "best");
    ExitCode::from(u8::from(!cases.iter().all(|case| lists.answer_alike(&mut compared, &case.calls))))
}

#[inline(never)]
fn without_operation(lists: &mut Lists, case: &List) {
    lists.run(&case.calls[..case.before]);
}

#[inline(never)]
fn with_operation(lists: &mut Lists, case: &List) {
    lists.run(&case.calls);
}

/// A book, and the lists that are lent to it.
struct Lists<'a> {
    book: &'a Book,
    of_quotes: bool,
    answers: Vec<Answer>,
    fills: Vec<Fill>,
    best: Vec<Best>,
}

impl Lists<'_> {
    fn new<'a>(book: &'a Book, cases: &[List], of_quotes: bool) -> Lists<'a> {
        let places = cases.iter().map(|case| case.calls.len()).max().unwrap_or(0);
        Lists {
            book,
            of_quotes,
            answers: vec![Answer::default(); places],
            fills: vec![Fill::default(); places + MAX_ORDERS],
            best: vec![Best::default(); places],
        }
    }

    /// Runs a list and gives how many fills it has.
    #[inline(never)]
    fn run(&mut self, calls: &[Call]) -> usize {
        let (end, answered, fills) = if self.of_quotes {
            (DONE, (self.book.protect)(calls, &mut self.best), 0)
        } else {
            let run = (self.book.run)(calls, &mut self.answers, &mut self.fills);
            (run.end, run.calls, run.fills)
        };
        assert!(end == DONE && answered == calls.len());
        fills
    }

    fn answer_alike(&mut self, other: &mut Lists, calls: &[Call]) -> bool {
        let (count, fills) = (calls.len(), self.run(calls));
        fills == other.run(calls)
            && self.fills[..fills] == other.fills[..fills]
            && self.answers[..count] == other.answers[..count]
            && self.best[..count] == other.best[..count]
    }
}
