//! A morning on the proved book, by its C interface: the calls of a list and their answers in words, where the answers end
//! at an unknown letter and at a list of fills that is too short, the protected quotes, a day file, and a long one.
//! `link/c/morning.c` does the same, and `link/morning.expected` is what both print. Exit status: 0 only if all ended as it
//! should, and the answers to the long day are what they should be.

mod coralauger;

use coralauger::{Answer, Best, Call, End, Fill, Run};
use std::io::{self, Write};
use std::process::ExitCode;

const FILL_PLACES: usize = 300;

const LONG_BYTES: usize = 65_536;

const ROUNDS: usize = 1_000;

const DAY: &[u8] = b"call,who,side,kind,price,offset,shares,ref
A,5,,,,,,
P,,,O,,,,
T,1,S,,10050,,100,
E,2,S,R,10020,15,100,
R,5,B,1,10050,,80,
C,2,,,,,,1
C,2,,,,,,1
";

fn morning() -> Vec<Call> {
    let call = Call::default();
    let tell = Call { call: b'T', who: 1, shares: 300, ..call };
    let buy = Call { call: b'E', side: b'B', ..call };
    let retail_sell = Call { call: b'R', who: 5, side: b'S', price: 10_000, ..call };
    vec![
        Call { side: b'B', price: 10_000, ..tell },
        Call { side: b'S', price: 10_050, ..tell },
        // without the flag the number beside it is no offset
        Call { who: 2, kind: b'R', price: 10_015, offset: 5, shares: 500, ..buy },
        Call { who: 3, kind: b'R', price: 10_040, has_offset: true, offset: 20, shares: 300, ..buy },
        Call { who: 4, kind: b'H', price: 10_010, shares: 200, ..buy },
        Call { who: 4, kind: b'H', price: 10_015, shares: 200, ..buy },
        Call { call: b'A', who: 5, ..call },
        Call { call: b'P', kind: b'O', ..call },
        Call { kind: b'1', shares: 600, ..retail_sell },
        Call { who: 6, kind: b'1', shares: 600, ..retail_sell },
        Call { call: b'C', who: 2, number: 1, ..call },
        Call { kind: b'3', shares: 1_000, ..retail_sell },
        Call { call: b'D', number: 5, ..call },
        Call { call: b'B', number: 5, shares: 800, away: 650, ..call },
        Call { call: b'X', who: 1, ..call },
        Call { call: b'L', who: 1, ..call },
        Call { call: b'W', who: 5, ..call },
        Call { kind: b'2', shares: 100, ..retail_sell },
    ]
}

/// An offer alone, a bid beside it, an exception that leaves neither, its end, and the offer taken away.
fn quotes() -> [Call; 5] {
    let centre = Call { who: 1, ..Call::default() };
    let tell = Call { call: b'T', shares: 300, ..centre };
    [
        Call { side: b'S', price: 10_050, ..tell },
        Call { side: b'B', price: 10_000, ..tell },
        Call { call: b'X', ..centre },
        Call { call: b'L', ..centre },
        Call { side: b'S', shares: 0, ..tell },
    ]
}

/// What a call that was taken was answered.
fn taken(call: u8, answer: &Answer) -> String {
    let Answer { number, shares, cancelled, waiting, .. } = answer;
    match call {
        b'E' => format!("order {number} rests, {shares} shares"),
        b'C' => format!("order {number} is cancelled, {shares} shares"),
        b'R' => format!("Retail Order {number}: {shares} shares filled, {cancelled} cancelled, {waiting} waiting"),
        b'D' => format!("slip {number} is drawn, {shares} shares"),
        b'B' => format!("slip {number} is back: {shares} shares executed away, {cancelled} cancelled"),
        _ => String::from("made"),
    }
}

/// Says every answer, with its fills under it.
fn say_answers(calls: &[Call], answers: &[Answer], mut fills: &[Fill]) {
    for (place, (call, answer)) in calls.iter().zip(answers).enumerate() {
        let said = match answer.refusal {
            0 => taken(call.call, answer),
            refusal => format!("refused, number {refusal}"),
        };
        println!("{:2} {}: {said}", place + 1, char::from(call.call));
        let (own, others) = fills.split_at(answer.fills);
        for Fill { number, price, shares } in own {
            println!("      order {number} gives {shares} shares at {price} mills");
        }
        fills = others;
    }
}

/// Runs calls, and says how it ended.
fn run(calls: &[Call], answers: &mut [Answer], fills: &mut [Fill]) -> Run {
    let run = coralauger::run(calls, answers, fills);
    let Run { end, calls, fills } = run;
    println!("The run ends ({end}): {calls} calls are answered, with {fills} fills.");
    run
}

/// Runs the morning three times: as it is; with a letter that no call has, in its twelfth call; and with so few places for
/// fills that the three of its first twelve calls leave fewer than 256.
fn run_morning(calls: &[Call]) -> bool {
    let (mut answers, mut fills) = (vec![Answer::default(); calls.len()], [Fill::default(); FILL_PLACES]);
    let whole = run(calls, &mut answers, &mut fills);
    say_answers(calls, &answers[..whole.calls], &fills[..whole.fills]);
    let mut unknown = calls.to_vec();
    unknown[11].call = b'Z';
    let at_unknown = run(&unknown, &mut answers, &mut fills).end;
    let at_few = run(calls, &mut answers, &mut fills[..258]).end;
    whole.end == End::DONE && at_unknown == End::NO_SUCH_CALL && at_few == End::SHORT_LIST
}

fn say_protected() {
    let (calls, mut best) = (quotes(), [Best::default(); 5]);
    for (place, Best { bid, offer }) in coralauger::protect(&calls, &mut best).iter().enumerate() {
        println!("After quote {} the protected bid is {bid} and the protected offer {offer}.", place + 1);
    }
}

fn run_day() -> io::Result<bool> {
    let mut answers = [0; 256];
    let day = coralauger::answer_day(DAY, &mut answers);
    println!("The day ends ({}): its answers have {} bytes.", day.end, day.bytes);
    if day.end != End::DONE {
        return Ok(false);
    }
    io::stdout().write_all(&answers[..day.bytes])?;
    let short = coralauger::answer_day(DAY, &mut answers[..10]);
    println!("With 10 places it ends ({}): its answers have {} bytes.", short.end, short.bytes);
    Ok(short.end == End::SHORT_LIST)
}

/// A day in which an order rests, and a Retail Order fills it, a thousand times.
fn long_day() -> String {
    let mut text =
        String::from("call,who,side,kind,price,offset,shares,ref\nA,5,,,,,,\nP,,,O,,,,\nT,1,S,,10050,,100,\n");
    for _ in 0..ROUNDS {
        text.push_str("E,2,S,R,10020,,100,\nR,5,B,1,10050,,100,\n");
    }
    text
}

/// What that is answered.
fn long_answers() -> String {
    let mut text = String::from("line,code,ref,price,shares\n2,A,,,\n3,P,,,\n4,T,,,\n");
    for round in 0..ROUNDS {
        let (entry, retail, number) = (5 + 2 * round, 6 + 2 * round, 1 + 2 * round);
        text.push_str(&format!(
            "{entry},E,{number},,100\n{retail},F,{number},10020,100\n{retail},R,{},,100\n",
            number + 1
        ));
    }
    text
}

fn run_long_day() -> bool {
    let mut answers = vec![0; LONG_BYTES];
    let day = coralauger::answer_day(long_day().as_bytes(), &mut answers);
    let as_expected = &answers[..day.bytes.min(LONG_BYTES)] == long_answers().as_bytes();
    let said = if as_expected { "as they should be" } else { "and not as they should be" };
    println!("The long day ends ({}): its answers have {} bytes, {said}.", day.end, day.bytes);
    day.end == End::DONE && as_expected
}

fn main() -> io::Result<ExitCode> {
    let calls = morning();
    let mut ended = run_morning(&calls);
    say_protected();
    ended &= run_day()?;
    ended &= run_long_day();
    Ok(if ended { ExitCode::SUCCESS } else { ExitCode::FAILURE })
}
