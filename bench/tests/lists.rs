//! Lists of calls, as `link/coralauger.h` says them: drawing and returning slips by hand, unknown letters, short lists, and
//! the same answers of all books on every list that is measured.

use bench::books::BOOKS;
use bench::calls::*;
use bench::random::Random;
use bench::scenarios::{operation, Scenario};

const NOTHING: Answer = Answer { refusal: 99, number: 99, shares: 99, cancelled: 99, waiting: 99, fills: 99 };
const NO_FILL: Fill = Fill { number: 99, price: 99, shares: 99 };

/// Behind an approval of member 1 and the opening, all books answer the calls so.
fn open(calls: &[Call], answers: &[Answer], fills: &[Fill]) {
    let calls = [&[Call::approve(1), Call::move_phase(b'O')], calls].concat();
    let answers = [&[Answer::MADE, Answer::MADE], answers].concat();
    for book in BOOKS {
        let mut given = vec![NOTHING; answers.len() + 1];
        let mut filled = vec![NO_FILL; fills.len() + 256];
        let run = (book.run)(&calls, &mut given, &mut filled);
        assert_eq!(run, Run { end: DONE, calls: calls.len(), fills: fills.len() }, "{}", book.name);
        assert_eq!(given, [&answers[..], &[NOTHING]].concat(), "{}", book.name);
        assert_eq!(filled, [fills, &[NO_FILL; 256]].concat(), "{}", book.name);
    }
}

fn refusal(number: u32) -> Answer {
    Answer { refusal: number, ..Answer::MADE }
}

/// A Retail Order that is routable and meets nothing.
fn routable(shares: u32) -> Call {
    Call::retail(1, b'B', b'3', 10_000, shares)
}

fn waiting(number: u32, waiting: u32) -> Answer {
    Answer { number, waiting, ..Answer::MADE }
}

#[test]
fn a_slip_is_drawn_and_returned() {
    open(
        &[routable(500), Call::draw(1), Call::give_back(1, 500, 300)],
        &[waiting(1, 500), Answer::counted(1, 500), Answer { cancelled: 200, ..Answer::counted(1, 300) }],
        &[],
    );
    open(
        &[
            routable(500),
            Call::draw(1),
            Call::give_back(1, 500, 0),
            routable(7),
            Call::draw(2),
            Call::give_back(2, 7, 7),
        ],
        &[
            waiting(1, 500),
            Answer::counted(1, 500),
            Answer { cancelled: 500, ..Answer::counted(1, 0) },
            waiting(2, 7),
            Answer::counted(2, 7),
            Answer::counted(2, 7),
        ],
        &[],
    );
}

#[test]
fn a_slip_is_drawn_only_while_it_waits() {
    open(
        &[
            Call::draw(0),
            Call::draw(1),
            routable(500),
            Call::draw(2),
            Call::draw(1),
            Call::draw(1),
            Call::give_back(1, 500, 500),
            Call::draw(1),
        ],
        &[
            refusal(11),
            refusal(11),
            waiting(1, 500),
            refusal(11),
            Answer::counted(1, 500),
            refusal(11),
            Answer::counted(1, 500),
            refusal(11),
        ],
        &[],
    );
}

#[test]
fn a_return_needs_a_drawn_slip_of_its_number_and_shares() {
    open(
        &[
            routable(500),
            Call::give_back(1, 500, 0),
            Call::draw(1),
            Call::give_back(2, 500, 0),
            Call::give_back(1, 499, 500),
            Call::give_back(1, 501, 0),
            Call::give_back(1, 500, 501),
            Call::give_back(1, 500, u32::MAX),
            Call::give_back(1, 500, 499),
            Call::give_back(1, 500, 499),
        ],
        &[
            waiting(1, 500),
            refusal(12),
            Answer::counted(1, 500),
            refusal(12),
            refusal(12),
            refusal(12),
            refusal(13),
            refusal(13),
            Answer { cancelled: 1, ..Answer::counted(1, 499) },
            refusal(12),
        ],
        &[],
    );
}

#[test]
fn drawn_slips_count_until_they_are_back() {
    let mut calls: Vec<Call> = (0..32).map(|_| routable(10)).collect();
    let mut answers: Vec<Answer> = (1..=32).map(|number| waiting(number, 10)).collect();
    calls.extend([Call::draw(5), Call::draw(32), routable(10)]);
    answers.extend([Answer::counted(5, 10), Answer::counted(32, 10), refusal(10)]);
    calls.extend([Call::give_back(32, 10, 4), routable(20), routable(10), Call::draw(33), Call::give_back(5, 10, 10)]);
    let returned = Answer { cancelled: 6, ..Answer::counted(32, 4) };
    answers.extend([returned, waiting(33, 20), refusal(10), Answer::counted(33, 20), Answer::counted(5, 10)]);
    open(&calls, &answers, &[]);
}

#[test]
fn slips_work_in_every_phase() {
    open(
        &[
            routable(10),
            routable(20),
            Call::move_phase(b'H'),
            Call::draw(1),
            Call::move_phase(b'C'),
            Call::draw(2),
            Call::give_back(2, 20, 0),
            Call::give_back(1, 10, 10),
        ],
        &[
            waiting(1, 10),
            waiting(2, 20),
            Answer::MADE,
            Answer::counted(1, 10),
            Answer::MADE,
            Answer::counted(2, 20),
            Answer { cancelled: 20, ..Answer::counted(2, 0) },
            Answer::counted(1, 10),
        ],
        &[],
    );
}

#[test]
fn fills_and_what_is_left() {
    open(
        &[
            Call::tell(0, b'B', 10_000, 100),
            Call::enter(2, b'B', b'R', 10_040, 15, 300),
            Call::enter(3, b'B', b'H', 10_010, 0, 200),
            Call::enter(4, b'B', b'D', 10_020, 0, 50),
            Call::retail(1, b'S', b'1', 10_000, 400),
            Call::retail(1, b'S', b'2', 10_001, 1_000),
            Call::cancel(2, 1),
        ],
        &[
            Answer::MADE,
            Answer::counted(1, 300),
            Answer::counted(2, 200),
            Answer::counted(3, 50),
            Answer { fills: 3, ..Answer::counted(4, 400) },
            Answer { cancelled: 850, fills: 1, ..Answer::counted(5, 150) },
            refusal(9),
        ],
        &[
            Fill { number: 3, price: 10_020, shares: 50 },
            Fill { number: 1, price: 10_015, shares: 300 },
            Fill { number: 2, price: 10_010, shares: 50 },
            Fill { number: 2, price: 10_010, shares: 150 },
        ],
    );
}

#[test]
fn cancels_exceptions_and_approvals() {
    open(
        &[
            Call::tell(0, b'B', 10_000, 100),
            Call::enter(5, b'B', b'R', 10_007, 0, 9),
            Call::declare(0),
            Call::retail(1, b'S', b'1', 1, 8),
            Call::lift(0),
            Call::cancel(5, 1),
            Call::withdraw(1),
            Call::retail(1, b'S', b'1', 1, 8),
            Call::tell(32, b'B', 10_000, 100),
        ],
        &[
            Answer::MADE,
            Answer::counted(1, 9),
            Answer::MADE,
            Answer { number: 2, cancelled: 8, ..Answer::MADE },
            Answer::MADE,
            Answer::counted(1, 9),
            Answer::MADE,
            refusal(5),
            refusal(1),
        ],
        &[],
    );
}

/// A list ends before a call that has an unknown letter.
#[test]
fn unknown_letters() {
    let order = Call::enter(1, b'B', b'R', 10_000, 0, 1);
    let unknown = [
        Call::default(),
        Call { call: b'S', ..Call::draw(1) },
        Call { call: b'I', ..Call::default() },
        Call { call: b'e', ..order },
        Call { side: b'b', ..order },
        Call { side: 0, ..order },
        Call { kind: b'1', ..order },
        Call { kind: b'B', ..routable(1) },
        Call { side: b'R', ..routable(1) },
        Call { kind: b'R', ..routable(1) },
        Call { kind: b'4', ..routable(1) },
        Call { side: b'O', ..Call::tell(0, b'B', 1, 1) },
        Call::move_phase(b'R'),
        Call::move_phase(0),
    ];
    let rests = |number| Answer::counted(number, 1);
    for call in unknown {
        for book in BOOKS {
            let (mut answers, mut fills) = ([NOTHING; 4], [NO_FILL; 256]);
            let run = (book.run)(&[order, order, call, order], &mut answers, &mut fills);
            assert_eq!(run, Run { end: NO_SUCH_CALL, calls: 2, fills: 0 }, "{}: {call:?}", book.name);
            assert_eq!(answers, [rests(1), rests(2), NOTHING, NOTHING], "{}", book.name);
            assert_eq!(fills, [NO_FILL; 256], "{}", book.name);
            // The letters are looked at before the places.
            let run = (book.run)(&[order, order, call], &mut answers[..2], &mut fills);
            assert_eq!(run, Run { end: NO_SUCH_CALL, calls: 2, fills: 0 }, "{}: {call:?}", book.name);
            let run = (book.run)(&[call], &mut [], &mut []);
            assert_eq!(run, Run { end: NO_SUCH_CALL, calls: 0, fills: 0 }, "{}: {call:?}", book.name);
            assert_eq!((book.protect)(&[call], &mut [Best::default()]), 0, "{}: {call:?}", book.name);
        }
    }
}

/// Letters that a call does not use are not read.
#[test]
fn letters_that_are_not_used() {
    let noise = Call { side: 7, kind: 200, ..Call::default() };
    let mut calls = Vec::new();
    for letter in *b"CDBAWXL" {
        calls.push(Call { call: letter, ..noise });
    }
    calls.push(Call { kind: 9, ..Call::tell(40, b'S', 1, 1) });
    calls.push(Call { side: 9, ..Call::move_phase(b'H') });
    // Centre 0 can be excepted; there is no member, order or slip 0, no centre 40, and nothing to halt.
    let refusals = [1, 11, 12, 1, 1, 0, 0, 1, 4];
    for book in BOOKS {
        let mut answers = [NOTHING; 9];
        let run = (book.run)(&calls, &mut answers, &mut [NO_FILL; 256]);
        assert_eq!(run, Run { end: DONE, calls: 9, fills: 0 }, "{}", book.name);
        assert_eq!(answers, refusals.map(refusal), "{}", book.name);
    }
}

/// A list ends where there is no place for the next answer, or where fewer than 256 are left for its fills.
#[test]
fn short_lists() {
    let calls = [
        Call::approve(1),
        Call::move_phase(b'O'),
        Call::tell(0, b'B', 10_000, 100),
        Call::enter(2, b'B', b'R', 10_010, 0, 10),
        Call::enter(2, b'B', b'R', 10_010, 0, 10),
        Call::retail(1, b'S', b'1', 1, 15),
        Call::withdraw(1),
    ];
    for book in BOOKS {
        for (answer_places, fill_places, end, answered, filled) in [
            (9, 300, DONE, 7, 2),
            (7, 258, DONE, 7, 2),
            (7, 257, SHORT_LIST, 6, 2),
            (7, 256, SHORT_LIST, 6, 2),
            (7, 255, SHORT_LIST, 0, 0),
            (7, 0, SHORT_LIST, 0, 0),
            (6, 300, SHORT_LIST, 6, 2),
            (5, 300, SHORT_LIST, 5, 0),
            (0, 300, SHORT_LIST, 0, 0),
        ] {
            let (mut answers, mut fills) = (vec![NOTHING; answer_places], vec![NO_FILL; fill_places]);
            let run = (book.run)(&calls, &mut answers, &mut fills);
            assert_eq!(run, Run { end, calls: answered, fills: filled }, "{}", book.name);
            assert!(answers[answered..].iter().all(|answer| *answer == NOTHING), "{}", book.name);
            assert!(answers[..answered].iter().all(|answer| *answer != NOTHING), "{}", book.name);
            assert!(fills[filled..].iter().all(|fill| *fill == NO_FILL), "{}", book.name);
            assert!(fills[..filled].iter().all(|fill| *fill != NO_FILL), "{}", book.name);
        }
        assert_eq!((book.run)(&[], &mut [], &mut []), Run { end: DONE, calls: 0, fills: 0 }, "{}", book.name);
    }
}

/// Quote calls, and the protected quotes after each; a price of 0 stands for none.
const QUOTES: [(Call, u32, u32); 12] = [
    (Call::tell(0, b'B', 10_000, 100), 10_000, 0),
    (Call::tell(1, b'B', 10_010, 99), 10_000, 0),
    (Call::tell(2, b'B', 10_005, 100), 10_005, 0),
    (Call::tell(3, b'S', 10_050, 200), 10_005, 10_050),
    (Call::tell(31, b'S', 10_040, 1_000_000), 10_005, 10_040),
    (Call::tell(32, b'S', 10_030, 100), 10_005, 10_040),
    (Call::declare(2), 10_000, 10_040),
    (Call::declare(31), 10_000, 10_050),
    (Call::lift(31), 10_000, 10_040),
    (Call::lift(2), 10_005, 10_040),
    (Call::tell(2, b'B', 0, 0), 10_000, 10_040),
    (Call::tell(0, b'B', 0, 0), 0, 10_040),
];

#[test]
fn protected_quotes() {
    let left = Best { bid: 99, offer: 99 };
    let written = QUOTES.map(|(_, bid, offer)| Best { bid, offer });
    // It ends at the first call that is none of a quote.
    let calls = [&QUOTES.map(|(call, ..)| call)[..], &[Call::approve(1), QUOTES[0].0]].concat();
    for book in BOOKS {
        let mut given = [left; 14];
        assert_eq!((book.protect)(&calls, &mut given), 12, "{}", book.name);
        assert_eq!(given, [&written[..], &[left; 2]].concat()[..], "{}", book.name);
        let mut few = [left; 3];
        assert_eq!((book.protect)(&calls, &mut few), 3, "{}", book.name);
        assert_eq!(few, written[..3], "{}", book.name);
    }
}

/// All books answer the measured lists alike, and the operation is what it is said to be.
#[test]
fn measured_lists() {
    let scenarios =
        ["entry", "cancel", "tell", "declare", "refused", "draw", "return", "retail-0", "retail-1", "retail-6"];
    for size in [16, 64, 256] {
        let more = ["retail-64", "passing-0", "passing-16", "passing-128"];
        let more = if size == 256 { &more[..] } else { &more[..0] };
        for name in scenarios.iter().chain(more) {
            for seed in 0..20 {
                measured_list(name, size, seed);
            }
        }
    }
}

fn measured_list(name: &str, size: usize, seed: u64) {
    let scenario = Scenario::named(name).unwrap();
    let case = operation(scenario, size, seed);
    let count = case.calls.len();
    assert_eq!(case.before, count - 1);
    let mut first: Option<(Vec<Answer>, Vec<Fill>)> = None;
    for book in BOOKS {
        let (mut answers, mut fills) = (vec![NOTHING; count], vec![NO_FILL; count + 256]);
        let run = (book.run)(&case.calls, &mut answers, &mut fills);
        assert_eq!((run.end, run.calls), (DONE, count));
        let wanted = match scenario {
            Scenario::Retail(fills) => fills as usize,
            _ => 0,
        };
        assert_eq!(answers[count - 1].fills, wanted, "{name} {size} {seed}");
        let refused = answers.iter().filter(|answer| answer.refusal > 0).count();
        assert_eq!(refused, usize::from(scenario == Scenario::Refused), "{name} {size} {seed}");
        let answered = (answers, fills);
        assert!(first.as_ref().is_none_or(|first| *first == answered), "{} {name} {size} {seed}", book.name);
        first.get_or_insert(answered);
    }
}

/// All books answer lists alike that are made at random: around one market, with numbers at the ends of their ranges and
/// beyond, orders and slips that are there and that are not, now and then a letter that is unknown or a list that is short.
#[test]
fn random_lists() {
    let mut refusals = [0; 14];
    let mut ends = [0; 4];
    let mut filled = 0;
    for seed in 0..3_000 {
        let random = &mut Random::new(seed);
        let calls = random_list(random);
        let short = random.once_in(10);
        let answer_places = if short { random.below(calls.len() + 1) } else { calls.len() };
        let fill_places = if short { random.below(300) } else { calls.len() + 256 };
        let all: Vec<_> = BOOKS
            .iter()
            .map(|book| {
                let (mut answers, mut fills) = (vec![NOTHING; answer_places], vec![NO_FILL; fill_places]);
                let run = (book.run)(&calls, &mut answers, &mut fills);
                let mut best = vec![Best { bid: 99, offer: 99 }; answer_places];
                let written = (book.protect)(&calls, &mut best);
                (run, answers, fills, written, best)
            })
            .collect();
        assert!(all.iter().all(|other| *other == all[0]), "seed {seed}");
        let (run, answers, ..) = &all[0];
        ends[run.end as usize] += 1;
        filled += run.fills;
        for answer in &answers[..run.calls] {
            refusals[answer.refusal as usize] += 1;
        }
    }
    // Every refusal but those that a list cannot reach, or not in so few calls: a short fill list, and numbers used up.
    assert!(refusals.iter().enumerate().all(|(number, count)| (*count > 0) != matches!(number, 6 | 8)), "{refusals:?}");
    assert!(ends[0] > 1_000 && ends[2] > 100 && ends[3] > 100 && filled > 10_000, "{ends:?} {filled}");
}

fn random_list(random: &mut Random) -> Vec<Call> {
    let count = random.of(1..=400) as usize;
    let mut calls =
        vec![Call::approve(1), Call::approve(2), Call::tell(0, b'B', 1_000, 100), Call::tell(0, b'S', 1_050, 100)];
    if !random.once_in(8) {
        calls.push(Call::move_phase(b'O'));
    }
    // Mostly entries in some lists, so that the book is full, and slips alone in others.
    let entries = random.of(0..=12);
    let slips = random.once_in(4);
    let unknown = random.once_in(8);
    while calls.len() < count {
        let call = match random.of(0..=15) {
            _ if slips => random_slip_call(random),
            turn if turn < entries => random_entry(random),
            _ => random_call(random),
        };
        calls.push(if unknown && random.once_in(100) { unknown_letter(random, call) } else { call });
    }
    calls
}

fn random_slip_call(random: &mut Random) -> Call {
    let number = random.of(0..=50);
    let shares = random.pick(&[50, 60]);
    match random.of(0..=5) {
        0..=2 => Call::retail(1, b'B', b'3', 1_000, shares),
        3 => Call::draw(number),
        _ => Call::give_back(number, shares, random.pick(&[0, 50, 60, 61])),
    }
}

fn random_entry(random: &mut Random) -> Call {
    let offset = if random.once_in(2) { random.of(1..=60) } else { 0 };
    let kind = if offset > 0 && !random.once_in(20) { b'R' } else { random.pick(b"RHD") };
    let price = random.of(980..=1_070);
    let price = if kind == b'R' || random.once_in(10) { price } else { price / 10 * 10 };
    let mut entry = Call::enter(random.of(1..=4), random.pick(b"BS"), kind, price, offset, random.of(1..=300));
    if random.once_in(40) {
        entry = out_of_range(random, entry);
    }
    entry
}

fn random_call(random: &mut Random) -> Call {
    let number = random.of(0..=200);
    let call = match random.of(0..=19) {
        0..=4 => retail(random),
        5 => Call::cancel(random.of(1..=4), number),
        6..=7 => Call::draw(number),
        8..=9 => Call::give_back(number, random.pick(&[50, 60, 100]), random.pick(&[0, 50, 60, 101])),
        10..=15 => {
            Call::tell(random.of(0..=31), random.pick(b"BS"), random.of(985..=1_065), random.pick(&[0, 99, 100, 500]))
        }
        16 => Call::declare(random.of(0..=32)),
        17 => Call::lift(random.of(0..=32)),
        18 => random.pick(&[Call::approve(1), Call::approve(3), Call::withdraw(2), Call::approve(65)]),
        _ => Call::move_phase(if random.once_in(20) { b'C' } else { random.pick(b"OOOH") }),
    };
    if random.once_in(60) {
        out_of_range(random, call)
    } else {
        call
    }
}

/// A Retail Order; some are of the shares that slips are returned with.
fn retail(random: &mut Random) -> Call {
    let shares = random.pick(&[50, 60, 100, 350, 1_000, 50_000]);
    let limit = random.pick(&[1, 1_000, 1_010, 1_040, 2_000]);
    Call::retail(random.of(1..=3), random.pick(b"BS"), random.pick(b"123"), limit, shares)
}

/// The call with one number at an end of its range, or beyond it.
fn out_of_range(random: &mut Random, call: Call) -> Call {
    let number =
        random.pick(&[0, 1, 31, 32, 64, 65, 100_000, 100_001, 1_000_000, 1_000_001, 10_000_000, 10_000_001, u32::MAX]);
    match random.of(0..=4) {
        0 => Call { who: number, ..call },
        1 => Call { price: number, ..call },
        2 => Call { offset: number, has_offset: true, ..call },
        3 => Call { shares: number, ..call },
        _ => Call { number, away: number, ..call },
    }
}

fn unknown_letter(random: &mut Random, call: Call) -> Call {
    let letter = random.of(0..=255) as u8;
    match random.of(0..=2) {
        0 => Call { call: letter, ..call },
        1 => Call { side: letter, ..call },
        _ => Call { kind: letter, ..call },
    }
}

/// The library answers day files as the fast book does, and says how many bytes there are if they are more than places.
#[cfg(feature = "linked")]
#[test]
fn days_by_the_library() {
    for seed in 0..320 {
        let day = bench::generate::day_of(seed);
        let wanted = bench::fast::answer_day(&day);
        let mut answers = vec![0; wanted.len() + 1];
        let done = Day { end: DONE, bytes: wanted.len() };
        assert_eq!(bench::linked::answer_day(&day, &mut answers), done, "seed {seed}");
        assert!(answers[..wanted.len()] == wanted && answers[wanted.len()] == 0, "seed {seed}");
        let mut few = vec![0; wanted.len() - 1];
        let short = Day { end: SHORT_LIST, bytes: wanted.len() };
        assert_eq!(bench::linked::answer_day(&day, &mut few), short, "seed {seed}");
        assert!(few.iter().all(|byte| *byte == 0), "seed {seed}");
    }
}
