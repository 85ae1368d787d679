//! `measure` prints, as tables in Markdown, how long blocks of calls take on each book, in nanoseconds: the median of
//! several repetitions of a list of thousands of blocks, less the list that makes the book, divided by the blocks. In a
//! repetition the books take turns. Every list is answered by all books first, and the answers are compared: the exit
//! status is 1 if two books answer a list differently.

use bench::books::{Book, BOOKS};
use bench::calls::{Answer, Best, Call, Fill, Run, DONE};
use bench::scenarios::{blocks, List, Scenario};
use bench::terms::MAX_ORDERS;
use std::process::ExitCode;
use std::time::Instant;

const SEED: u64 = 7;
const BLOCKS: usize = 2_000;
const REPETITIONS: usize = 31;

/// What each block is, in the tables.
const ROWS: [(&str, Scenario); 10] = [
    ("a refused call", Scenario::Refused),
    ("a cancel of a random order and its entry again", Scenario::Cancel),
    ("a tell", Scenario::Tell),
    ("a tell and the protected quotes (`coralauger_protect`)", Scenario::Best),
    ("a declare and a lift", Scenario::Declare),
    ("a routable Retail Order without a fill, its slip drawn and returned", Scenario::Draw),
    ("a Retail Order without a fill", Scenario::Retail(0)),
    ("a Retail Order with 1 fill and the entry that replaces it", Scenario::Retail(1)),
    ("a Retail Order with 6 fills and the 6 entries that replace them", Scenario::Retail(6)),
    ("a Retail Order with 64 fills and the 64 entries that replace them", Scenario::Retail(64)),
];

fn main() -> ExitCode {
    let mut compared = Compared::default();
    for size in [16, 64, 256] {
        let rows = ROWS.iter().filter(|row| size == 256 || row.1 != Scenario::Retail(64));
        table(&format!("Block, with {size} orders resting"), size, rows.copied(), &mut compared);
    }
    let fills = [1, 2, 4, 8, 16, 32, 64].map(|fills| (fills.to_string(), Scenario::Retail(fills)));
    let rows = fills.iter().map(|(name, scenario)| (name.as_str(), *scenario));
    table(
        "Fills of a Retail Order at 256 orders; the block has the entries that replace them",
        256,
        rows,
        &mut compared,
    );
    let passed = [0, 16, 32, 64, 128].map(|passed| (passed.to_string(), Scenario::Passing(passed)));
    let rows = passed.iter().map(|(name, scenario)| (name.as_str(), *scenario));
    table("Orders that a Retail Order without a fill passes over, of 128", 256, rows, &mut compared);
    println!("{} lists with {} calls, {} differences.", compared.lists, compared.calls, compared.differences);
    ExitCode::from(u8::from(compared.differences > 0))
}

/// How many lists all books have answered, and how many of them differently.
#[derive(Default)]
struct Compared {
    lists: usize,
    calls: usize,
    differences: usize,
}

fn table<'a>(title: &str, size: usize, rows: impl Iterator<Item = (&'a str, Scenario)>, compared: &mut Compared) {
    println!("| {title} | {} |", BOOKS.iter().map(|book| book.name).collect::<Vec<_>>().join(" | "));
    println!("|---|{}", "--:|".repeat(BOOKS.len()));
    for (name, scenario) in rows {
        let list = blocks(scenario, size, SEED, BLOCKS);
        let mut lent = Lent::new(scenario, list.calls.len());
        compared.lists += 1;
        compared.calls += list.calls.len();
        compared.differences += usize::from(!lent.all_answer_alike(&list.calls));
        let times = lent.times(&list);
        let cells: Vec<String> = times.iter().map(|time| format!("{time:.0}")).collect();
        println!("| {name} | {} |", cells.join(" | "));
    }
    println!();
}

/// The lists that are lent to each book in turn.
struct Lent {
    is_protect: bool,
    answers: Vec<Answer>,
    fills: Vec<Fill>,
    best: Vec<Best>,
}

impl Lent {
    fn new(scenario: Scenario, places: usize) -> Lent {
        Lent {
            is_protect: scenario == Scenario::Best,
            answers: vec![Answer::default(); places],
            fills: vec![Fill::default(); places + MAX_ORDERS],
            best: vec![Best::default(); places],
        }
    }

    fn run(&mut self, book: &Book, calls: &[Call]) -> Run {
        if self.is_protect {
            Run { end: DONE, calls: (book.protect)(calls, &mut self.best), fills: 0 }
        } else {
            (book.run)(calls, &mut self.answers, &mut self.fills)
        }
    }

    fn all_answer_alike(&mut self, calls: &[Call]) -> bool {
        let mut all = BOOKS.iter().map(|book| {
            let run = self.run(book, calls);
            (run, self.answers.clone(), self.fills[..run.fills].to_vec(), self.best.clone())
        });
        let first = all.next().expect("a book");
        first.0.end == DONE && first.0.calls == calls.len() && all.all(|other| other == first)
    }

    /// The nanoseconds of a block on each book.
    fn times(&mut self, list: &List) -> Vec<f64> {
        let mut taken = vec![Vec::new(); BOOKS.len()];
        for _ in 0..REPETITIONS {
            for (book, taken) in BOOKS.iter().zip(&mut taken) {
                let before = self.time(book, &list.calls[..list.before]);
                taken.push((self.time(book, &list.calls) - before) / BLOCKS as f64);
            }
        }
        taken.into_iter().map(median).collect()
    }

    fn time(&mut self, book: &Book, calls: &[Call]) -> f64 {
        let start = Instant::now();
        std::hint::black_box(self.run(book, std::hint::black_box(calls)));
        start.elapsed().as_nanos() as f64
    }
}

fn median(mut times: Vec<f64>) -> f64 {
    times.sort_by(f64::total_cmp);
    times[times.len() / 2]
}
