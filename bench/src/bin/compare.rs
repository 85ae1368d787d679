//! `compare FROM TO RPIDAY` makes the day file of each seed from FROM to TO, both among them, lets the program RPIDAY, the
//! plain book and the fast book answer it, and compares the answers byte for byte. A file that is answered differently is
//! kept in `differences/`. It ends with how often each letter and number was answered, and `N files, D differences`.

use bench::generate::{day_of, kind_of};
use bench::{fast, plain};
use std::collections::BTreeMap;
use std::error::Error;
use std::fs::{self, File};
use std::path::Path;
use std::process::{Command, ExitCode, Stdio};

const KEPT: &str = "differences";

/// How many files of each kind there were, and how many answer lines of each letter, refusal and fault.
#[derive(Default)]
struct Counts {
    files: BTreeMap<String, u64>,
    answers: BTreeMap<String, u64>,
    bytes: u64,
    lines: u64,
}

fn main() -> ExitCode {
    let arguments: Vec<String> = std::env::args().skip(1).collect();
    let [from, to, rpiday] = arguments.as_slice() else {
        eprintln!("compare FROM TO RPIDAY");
        return ExitCode::from(2);
    };
    let (Ok(from), Ok(to)) = (from.parse(), to.parse()) else {
        eprintln!("FROM and TO are numbers");
        return ExitCode::from(2);
    };
    match compare(from, to, Path::new(rpiday)) {
        Ok(0) => ExitCode::SUCCESS,
        Ok(_) => ExitCode::FAILURE,
        Err(error) => {
            eprintln!("{error}");
            ExitCode::from(2)
        }
    }
}

/// Compares all seeds and gives how many files were answered differently.
fn compare(from: u64, to: u64, rpiday: &Path) -> Result<u64, Box<dyn Error>> {
    fs::create_dir_all(KEPT)?;
    let mut counts = Counts::default();
    let mut files = 0u64;
    let mut differences = 0u64;
    for seed in from..=to {
        let day = day_of(seed);
        let path = Path::new(KEPT).join(format!("day-{seed}.csv"));
        fs::write(&path, &day)?;
        let proved = answers_of(rpiday, &path)?;
        let different = [("plain", plain::answer_day(&day)), ("fast", fast::answer_day(&day))]
            .iter()
            .filter(|(book, answers)| tell_difference(seed, book, &proved, answers))
            .count();
        files += 1;
        counts.add(seed, &day, &proved);
        if different > 0 {
            differences += 1;
            println!("seed {seed} ({:?}): kept as {}", kind_of(seed), path.display());
        } else {
            fs::remove_file(&path)?;
        }
    }
    counts.print();
    println!("{files} files, {differences} differences");
    Ok(differences)
}

/// What the program answers the file at a path.
fn answers_of(program: &Path, day: &Path) -> Result<Vec<u8>, Box<dyn Error>> {
    let output = Command::new(program).stdin(File::open(day)?).stderr(Stdio::inherit()).output()?;
    if !output.status.success() {
        return Err(format!("{}: {} at {}", program.display(), output.status, day.display()).into());
    }
    Ok(output.stdout)
}

/// Whether the answers differ; if so, prints the first line that does, as both have it.
fn tell_difference(seed: u64, book: &str, proved: &[u8], answers: &[u8]) -> bool {
    if proved == answers {
        return false;
    }
    let mut theirs = proved.split_inclusive(|byte| *byte == b'\n');
    let mut ours = answers.split_inclusive(|byte| *byte == b'\n');
    for line in 1.. {
        let (their, our) = (theirs.next(), ours.next());
        if their != our {
            println!("seed {seed}, line {line} of the answers: rpiday {}, {book} {}", shown(their), shown(our));
            break;
        }
    }
    true
}

fn shown(line: Option<&[u8]>) -> String {
    line.map_or("nothing".to_string(), |line| format!("{:?}", String::from_utf8_lossy(line)))
}

impl Counts {
    fn add(&mut self, seed: u64, day: &[u8], answers: &[u8]) {
        *self.files.entry(format!("{:?}", kind_of(seed))).or_default() += 1;
        self.bytes += day.len() as u64;
        for line in String::from_utf8_lossy(answers).lines().skip(1) {
            let fields: Vec<&str> = line.split(',').collect();
            let name = match fields.as_slice() {
                [_, "N", number, ..] => format!("N {number:>2}"),
                [_, "I", sides, ..] => format!("I {sides}"),
                [_, letter, ..] => letter.to_string(),
                _ => "?".to_string(),
            };
            *self.answers.entry(name).or_default() += 1;
            self.lines += 1;
        }
    }

    fn print(&self) {
        for (kind, files) in &self.files {
            println!("{files:>9} files {kind}");
        }
        for (name, lines) in &self.answers {
            println!("{lines:>9} answer lines {name}");
        }
        println!("{} bytes, {} answer lines", self.bytes, self.lines);
    }
}
